/*
 * live-long REQUESTS: so many requests of 4 KiB by one mesh, and the memory that it takes. 16 handles have one request
 * each out at a time, half of them writes: 8 at a stripe of two disks, 4 at each of two more. After each 1,000 requests
 * one disk is pulled, its handles are closed, and it is inserted and opened again. It prints the seconds of the
 * processor, and the peak of memory in MB with the disks' own 1 MB and all that a program in C has.
 */
#define _DEFAULT_SOURCE
#include "tazbrev.h"

#include <stdio.h>
#include <stdlib.h>
#include <string.h>
#include <sys/resource.h>

enum { SECTOR = 512, DISK = 1 << 18, BYTES = 4096, HANDLES = 16, PULLED = 12, EVERY = 1000 };

static uint8_t disks[4][DISK], data[HANDLES][BYTES];
static struct tzb_mesh *mesh;
static unsigned long replies, errors;

static int32_t on_read(void *arg, struct tzb_ask *ask, uint8_t *bytes, size_t len)
{
    memcpy(bytes, (uint8_t *)arg + ask->first * SECTOR, len);
    return 0;
}

static int32_t on_write(void *arg, struct tzb_ask *ask, const uint8_t *bytes, size_t len)
{
    memcpy((uint8_t *)arg + ask->first * SECTOR, bytes, len);
    return 0;
}

static void done(void *arg, int32_t error, const uint8_t *bytes, size_t len)
{
    (void)arg;
    (void)bytes;
    (void)len;
    replies++;
    errors += error != 0;
}

static void must(int32_t code)
{
    if (code == 0)
        return;
    printf("%s\n", tzb_error_name(code));
    exit(1);
}

static const char *name_of(int handle)
{
    static char name[8];
    snprintf(name, sizeof name, "h%d", handle);
    return name;
}

static void open_handles(int first, int end)
{
    for (int handle = first; handle < end; handle++)
        must(tzb_mesh_open_handle(mesh, "a", name_of(handle),
                                  handle < 8        ? "stripe/s"
                                  : handle < PULLED ? "d2"
                                                    : "d3",
                                  1, 1, 0));
}

/* One request of each handle, and all that follows. */
static void round_of(unsigned long number)
{
    for (int handle = 0; handle < HANDLES; handle++) {
        uint64_t offset = (number + (unsigned)handle * 5) % (DISK / BYTES) * BYTES;
        must(handle % 2 ? tzb_mesh_write(mesh, "a", name_of(handle), offset, data[handle], BYTES, done, NULL)
                        : tzb_mesh_read(mesh, "a", name_of(handle), offset, data[handle], BYTES, done, NULL));
    }
    must(tzb_mesh_run(mesh));
}

static void pull_and_insert(void)
{
    must(tzb_mesh_pull(mesh, "a", "d3"));
    must(tzb_mesh_run(mesh));
    for (int handle = PULLED; handle < HANDLES; handle++)
        must(tzb_mesh_close_handle(mesh, "a", name_of(handle)));
    must(tzb_mesh_run(mesh));
    must(tzb_mesh_insert(mesh, "a", "d3"));
    must(tzb_mesh_run(mesh));
    open_handles(PULLED, HANDLES);
}

/* The peak of memory in KB, of this program alone: `ru_maxrss` has that of who started it, too. */
static unsigned long peak(void)
{
    char line[128];
    unsigned long got = 0;
    FILE *status = fopen("/proc/self/status", "r");
    while (status != NULL && fgets(line, sizeof line, status) != NULL && sscanf(line, "VmHWM: %lu", &got) != 1)
        ;
    if (status != NULL)
        fclose(status);
    return got;
}

int main(int count, char **words)
{
    static const struct tzb_disk_ops ops = {sizeof ops, on_read, on_write, NULL, NULL};
    unsigned long wanted = count == 2 ? strtoul(words[1], NULL, 10) : 0, changes = 0;
    struct rusage used;
    mesh = tzb_mesh_create();
    for (int place = 0; place < 4; place++)
        must(tzb_mesh_set_disk(mesh, (const char *[]){"d0", "d1", "d2", "d3"}[place], &ops, disks[place], DISK));
    must(tzb_mesh_open(mesh, "disk d0 512\ndisk d1 512\ndisk d2 512\ndisk d3 512\nactor a\n"));
    must(tzb_mesh_run(mesh));
    must(tzb_mesh_command(mesh, "a", "stripe s 4096 d0 d1", NULL, NULL));
    must(tzb_mesh_run(mesh));
    open_handles(0, HANDLES);
    for (unsigned long number = 0; replies < wanted; number++) {
        round_of(number);
        if (replies / EVERY > changes) {
            changes++;
            pull_and_insert();
        }
    }
    getrusage(RUSAGE_SELF, &used);
    printf("%lu %lu %lu %.1f %.1f\n", replies, errors, changes,
           (double)used.ru_utime.tv_sec + (double)used.ru_utime.tv_usec / 1e6, (double)peak() / 1024);
    tzb_mesh_close(mesh);
    return errors != 0;
}
