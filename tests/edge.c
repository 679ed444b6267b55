/* Stands between a program and the system, if it is loaded before the C library, and spoils one call: that of the kind
 * $EDGE_CALL (open, read, write, pread, pwrite, fdatasync, fsync) and number $EDGE_NUMBER, counted from 1. $EDGE_HOW
 * says how: a number is the error with which it fails; `half`, it is given half of its bytes; `halves`, so is each one
 * after it; `full`, it is given half, and each one after it fails with ENOSPC; `shrink`, its image is first cut in the
 * middle of the bytes that it asks for; `gone`, the name of its image is first removed.
 *
 * Of reads those of standard input count, of writes those of standard output, and else those of files `NAME.img`. Each
 * such call is told by a line of the file $EDGE_TOLD: NAME or `-`, the kind, the offset, the bytes that were asked for,
 * and those that were given, or the error below zero. What is done first has a line of its own in front. */
#define _GNU_SOURCE
#include <errno.h>
#include <fcntl.h>
#include <stdarg.h>
#include <stdio.h>
#include <stdlib.h>
#include <string.h>
#include <sys/syscall.h>
#include <unistd.h>

enum kind { OPEN, READ, WRITE, PREAD, PWRITE, FDATASYNC, FSYNC, KINDS };
static const char *const kinds[KINDS] = { "open", "read", "write", "pread", "pwrite", "fdatasync", "fsync" };

static const char *spoiled = "", *how = "";
static long number, made[KINDS];
static int told = -1;

__attribute__((constructor)) static void begin(void)
{
	const char *file = getenv("EDGE_TOLD");
	if (getenv("EDGE_CALL") && getenv("EDGE_NUMBER") && getenv("EDGE_HOW")) {
		spoiled = getenv("EDGE_CALL");
		number = atol(getenv("EDGE_NUMBER"));
		how = getenv("EDGE_HOW");
	}
	if (file)
		told = syscall(SYS_openat, AT_FDCWD, file, O_CREAT | O_WRONLY | O_APPEND | O_CLOEXEC, 0600);
}

/* The name of the image that this path leads to, or NULL if it leads to none. */
static const char *image(const char *path, char name[64])
{
	const char *last = strrchr(path, '/'), *end;
	last = last ? last + 1 : path;
	end = strstr(last, ".img");
	if (!end || end - last >= 64)
		return NULL;
	memcpy(name, last, end - last);
	name[end - last] = 0;
	return name;
}

/* The name by which calls at a descriptor are told, or NULL if they aren't. */
static const char *name_of(enum kind kind, int fd, char name[64])
{
	char link[64], path[4096];
	ssize_t size;
	if (kind == READ || kind == WRITE)
		return fd == (kind == READ ? STDIN_FILENO : STDOUT_FILENO) ? "-" : NULL;
	snprintf(link, sizeof link, "/proc/self/fd/%d", fd);
	size = readlink(link, path, sizeof path - 1);
	if (size < 0)
		return NULL;
	path[size] = 0;
	return image(path, name);
}

static void tell(const char *name, const char *what, long long at, size_t asked, long long gave)
{
	char line[256];
	int size = snprintf(line, sizeof line, "%s %s %lld %zu %lld\n", name, what, at, asked, gave);
	if (told >= 0 && size > 0)
		syscall(SYS_write, told, line, (size_t)size);
}

/* Cuts the image in the middle of these bytes, or removes its name, if that is asked for. */
static void go_first(const char *name, int fd, long long at, size_t size)
{
	char file[80];
	if (!strcmp(how, "shrink")) {
		tell(name, how, at + size / 2, 0, ftruncate(fd, at + size / 2));
	} else if (!strcmp(how, "gone")) {
		snprintf(file, sizeof file, "%s.img", name);
		tell(name, how, 0, 0, unlink(file));
	}
}

/* What a call is to get: its bytes, or fewer; below zero the error with which it fails. */
static long long due(enum kind kind, const char *name, int fd, long long at, size_t size)
{
	long left = __atomic_add_fetch(&made[kind], 1, __ATOMIC_SEQ_CST) - number;
	size_t half = size / 2 ? size / 2 : size;
	if (strcmp(spoiled, kinds[kind]) || left < 0)
		return size;
	if (!strcmp(how, "halves"))
		return half;
	if (!strcmp(how, "full"))
		return left ? -ENOSPC : (long long)half;
	if (left > 0)
		return size;
	if (!strcmp(how, "half"))
		return half;
	if (atoi(how) > 0)
		return -atoi(how);
	go_first(name, fd, at, size);
	return size;
}

/* Tells what a call gave, and hands it on with its error. */
static long ended(const char *name, enum kind kind, off_t at, size_t size, long gave)
{
	int error = errno;
	if (name)
		tell(name, kinds[kind], at, size, gave < 0 ? -error : gave);
	errno = error;
	return gave;
}

/* Makes a call by its number, spoiled if it is its turn. The last words of those that have fewer aren't read. */
static long make(enum kind kind, long call, int fd, void *bytes, size_t size, off_t at)
{
	char room[64];
	const char *name = name_of(kind, fd, room);
	long long may = name ? due(kind, name, fd, at, size) : (long long)size;
	if (may < 0)
		errno = -may;
	return ended(name, kind, at, size, may < 0 ? -1 : syscall(call, fd, bytes, (size_t)may, at));
}

int open(const char *path, int flags, ...)
{
	char room[64];
	const char *name = image(path, room);
	long long may = name ? due(OPEN, name, -1, 0, 0) : 0;
	va_list more;
	va_start(more, flags);
	mode_t mode = flags & O_CREAT ? va_arg(more, mode_t) : 0;
	va_end(more);
	if (may < 0)
		errno = -may;
	return ended(name, OPEN, 0, 0, may < 0 ? -1 : syscall(SYS_openat, AT_FDCWD, path, flags, mode));
}

ssize_t read(int fd, void *bytes, size_t size)
{
	return make(READ, SYS_read, fd, bytes, size, 0);
}

ssize_t write(int fd, const void *bytes, size_t size)
{
	return make(WRITE, SYS_write, fd, (void *)bytes, size, 0);
}

ssize_t pread(int fd, void *bytes, size_t size, off_t at)
{
	return make(PREAD, SYS_pread64, fd, bytes, size, at);
}

ssize_t pwrite(int fd, const void *bytes, size_t size, off_t at)
{
	return make(PWRITE, SYS_pwrite64, fd, (void *)bytes, size, at);
}

/* Gives the processor away only each 64th time that it is asked to. A run in threads asks in each of its idle turns,
 * and beside other programs that takes it half a minute. Nothing but time comes of it. */
int sched_yield(void)
{
	static __thread unsigned asked;
	return ++asked % 64 ? 0 : syscall(SYS_sched_yield);
}

int fdatasync(int fd)
{
	return make(FDATASYNC, SYS_fdatasync, fd, NULL, 0, 0);
}

int fsync(int fd)
{
	return make(FSYNC, SYS_fsync, fd, NULL, 0, 0);
}
