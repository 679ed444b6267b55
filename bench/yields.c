/* The floor of `run`: five threads that do nothing but yield the processor 100,000 times each. So often a job yields
 * that finds nothing to do, before it ends; and of a script without a line these are all jobs. */
#include <pthread.h>
#include <sched.h>
#include <stdio.h>

#define JOBS 5
#define IDLE_TURNS 100000

static void *idle(void *nothing)
{
	for (int turn = 0; turn < IDLE_TURNS; turn++)
		sched_yield();
	return nothing;
}

int main(void)
{
	pthread_t jobs[JOBS];
	for (int k = 0; k < JOBS; k++) {
		if (pthread_create(&jobs[k], NULL, idle, NULL)) {
			fprintf(stderr, "yields: no thread can be made\n");
			return 1;
		}
	}
	for (int k = 0; k < JOBS; k++)
		pthread_join(jobs[k], NULL);
	return 0;
}
