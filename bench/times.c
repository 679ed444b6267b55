/* Tells on standard error what each thread of a program took that is run with this library before the C library: its
 * number in the order of their starts, its processor seconds, and when it began and ended, in seconds behind the start
 * of the first. The first thread begins $LATE milliseconds later. */
#define _GNU_SOURCE
#include <dlfcn.h>
#include <pthread.h>
#include <stdatomic.h>
#include <stdio.h>
#include <stdlib.h>
#include <time.h>

struct task {
	void *(*start)(void *);
	void *argument;
	int number;
};

static double zero;

static double seconds(clockid_t clock)
{
	struct timespec now;

	clock_gettime(clock, &now);
	return now.tv_sec + now.tv_nsec / 1e9;
}

static void wait_for(const char *milliseconds)
{
	long count = milliseconds ? atol(milliseconds) : 0;
	struct timespec time = { count / 1000, count % 1000 * 1000000 };

	nanosleep(&time, NULL);
}

static void *timed(void *argument)
{
	struct task task = *(struct task *)argument;
	double begun, busy;
	void *result;

	free(argument);
	if (task.number == 1)
		wait_for(getenv("LATE"));
	begun = seconds(CLOCK_MONOTONIC);
	busy = seconds(CLOCK_THREAD_CPUTIME_ID);
	result = task.start(task.argument);
	busy = seconds(CLOCK_THREAD_CPUTIME_ID) - busy;
	fprintf(stderr, "thread %d %.7f %.7f %.7f\n", task.number, busy, begun - zero, seconds(CLOCK_MONOTONIC) - zero);
	return result;
}

int pthread_create(pthread_t *thread, const pthread_attr_t *attributes, void *(*start)(void *), void *argument)
{
	static int (*next)(pthread_t *, const pthread_attr_t *, void *(*)(void *), void *);
	static atomic_int count;
	struct task *task = malloc(sizeof *task);

	if (!next) {
		next = dlsym(RTLD_NEXT, "pthread_create");
		zero = seconds(CLOCK_MONOTONIC);
	}
	*task = (struct task){ start, argument, ++count };
	return next(thread, attributes, timed, task);
}
