/*
 * Stands between a server and the system, if it is loaded before the C library: of the calls pread, pwrite, fallocate
 * and fdatasync some fail with EIO, one in $SOAK_RATE, some with EINTR, and some reads and writes are given whole
 * sectors less than they ask for. $SOAK_SEED says which.
 */
#define _GNU_SOURCE
#include <errno.h>
#include <stdatomic.h>
#include <stdbool.h>
#include <stdint.h>
#include <stdlib.h>
#include <sys/syscall.h>
#include <unistd.h>

enum { SECTOR = 512 };

static _Atomic uint64_t calls;
static uint64_t seed, rate;

__attribute__((constructor)) static void begin(void)
{
    const char *asked = getenv("SOAK_SEED"), *most = getenv("SOAK_RATE");
    seed = asked != NULL ? strtoull(asked, NULL, 10) : 0;
    rate = most != NULL ? strtoull(most, NULL, 10) : 0;
}

static uint64_t draw(uint64_t below)
{
    uint64_t mixed = (seed + atomic_fetch_add(&calls, 1)) * 0x9e3779b97f4a7c15u;
    mixed = (mixed ^ mixed >> 31) * 0xbf58476d1ce4e5b9u;
    return (mixed ^ mixed >> 29) % below;
}

/* Whether a call fails, and how many bytes it is given. */
static bool fails(size_t *size)
{
    if (rate == 0)
        return false;
    uint64_t drawn = draw(rate);
    if (drawn <= 1) {
        errno = drawn == 0 ? EIO : EINTR;
        return true;
    }
    if (drawn % 8 == 2 && *size > SECTOR)
        *size -= draw(*size / SECTOR) * SECTOR;
    return false;
}

ssize_t pread(int file, void *bytes, size_t size, off_t at)
{
    return fails(&size) ? -1 : syscall(SYS_pread64, file, bytes, size, at);
}

ssize_t pwrite(int file, const void *bytes, size_t size, off_t at)
{
    return fails(&size) ? -1 : syscall(SYS_pwrite64, file, bytes, size, at);
}

ssize_t pread64(int file, void *bytes, size_t size, off_t at) __attribute__((alias("pread")));
ssize_t pwrite64(int file, const void *bytes, size_t size, off_t at) __attribute__((alias("pwrite")));

int fallocate(int file, int mode, off_t at, off_t size)
{
    size_t none = 0;
    return fails(&none) ? -1 : (int)syscall(SYS_fallocate, file, mode, at, size);
}

int fdatasync(int file)
{
    size_t none = 0;
    return fails(&none) ? -1 : (int)syscall(SYS_fdatasync, file);
}
