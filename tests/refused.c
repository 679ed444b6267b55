/* Refuses one allocation of a program that is run with this library before the C library: that of number $REFUSED,
 * counted from 1 over all threads. The file $REFUSED_TOLD is then made. geomrun allocates by malloc and realloc alone.
 */
#define _GNU_SOURCE
#include <dlfcn.h>
#include <errno.h>
#include <fcntl.h>
#include <stdatomic.h>
#include <stdlib.h>
#include <unistd.h>

/* So many allocations are left up to the one that is refused, and none or fewer once it came. */
static atomic_long left;

__attribute__((constructor)) static void begin(void)
{
	const char *number = getenv("REFUSED");
	atomic_store(&left, number ? atol(number) : 0);
}

/* Whether this allocation is refused. */
static int refused(void)
{
	if (atomic_fetch_sub(&left, 1) != 1)
		return 0;
	const char *told = getenv("REFUSED_TOLD");
	int file = told ? open(told, O_CREAT | O_WRONLY, 0600) : -1;
	if (file >= 0)
		close(file);
	errno = ENOMEM;
	return 1;
}

void *malloc(size_t size)
{
	static void *(*next)(size_t);
	if (!next)
		next = dlsym(RTLD_NEXT, "malloc");
	return refused() ? NULL : next(size);
}

void *realloc(void *old, size_t size)
{
	static void *(*next)(void *, size_t);
	if (!next)
		next = dlsym(RTLD_NEXT, "realloc");
	return refused() ? NULL : next(old, size);
}
