/* Makes a program that is run with this library before the C library slower: with $SLOW each call by which it reads or
 * writes an image takes a millisecond more; with $ALONE no thread can be made. */
#define _GNU_SOURCE
#include <dlfcn.h>
#include <errno.h>
#include <pthread.h>
#include <stdlib.h>
#include <sys/types.h>
#include <time.h>

static void sleep_a_while(void)
{
	struct timespec millisecond = { 0, 1000000 };
	if (getenv("SLOW"))
		nanosleep(&millisecond, NULL);
}

ssize_t pread(int file, void *bytes, size_t count, off_t at)
{
	static ssize_t (*next)(int, void *, size_t, off_t);
	if (!next)
		next = dlsym(RTLD_NEXT, "pread");
	sleep_a_while();
	return next(file, bytes, count, at);
}

ssize_t pwrite(int file, const void *bytes, size_t count, off_t at)
{
	static ssize_t (*next)(int, const void *, size_t, off_t);
	if (!next)
		next = dlsym(RTLD_NEXT, "pwrite");
	sleep_a_while();
	return next(file, bytes, count, at);
}

int pthread_create(pthread_t *thread, const pthread_attr_t *attributes, void *(*start)(void *), void *argument)
{
	static int (*next)(pthread_t *, const pthread_attr_t *, void *(*)(void *), void *);
	if (getenv("ALONE"))
		return EAGAIN;
	if (!next)
		next = dlsym(RTLD_NEXT, "pthread_create");
	return next(thread, attributes, start, argument);
}
