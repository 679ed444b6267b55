/*
 * c-threads: threads share a mesh under a lock. Each writes its own sectors and reads them, over two disks that let the
 * others run in between. Prints how many requests there were, if each was well and read what was written. What a
 * listener heard goes to four files in the folder that is named: script, steps, replies, mesh.
 */
#define _GNU_SOURCE
#include <tazbrev.h>

#include <pthread.h>
#include <sched.h>
#include <stdatomic.h>
#include <stdio.h>
#include <string.h>

enum { THREADS = 6, ROUNDS = 300, SECTOR = 512, PART = 16 * SECTOR, LEN = THREADS * PART };

static struct tzb_mesh *mesh;
static pthread_mutex_t mutex = PTHREAD_MUTEX_INITIALIZER;
static uint8_t disks[2][LEN];
static atomic_uint requests, faults;

static void lock(void *arg)
{
    pthread_mutex_lock(arg);
}

static void unlock(void *arg)
{
    pthread_mutex_unlock(arg);
}

static FILE *parts[4];

static void told(void *arg, int32_t part, const char *text, size_t len)
{
    (void)arg;
    fwrite(text, 1, len, parts[part]);
}

/* The files of the parts are opened in a folder. */
static int begin_parts(const char *folder)
{
    static const char *const names[] = {"script", "steps", "replies", "mesh"};
    for (int part = 0; part < 4; part++) {
        char path[4096];
        snprintf(path, sizeof path, "%s/%s", folder, names[part]);
        if ((parts[part] = fopen(path, "w")) == NULL)
            return 1;
    }
    return tzb_mesh_set_listener(mesh, told, NULL);
}

static int end_parts(void)
{
    static char list[4096];
    size_t need;
    if (tzb_mesh_run(mesh) != 0 || tzb_mesh_list(mesh, list, sizeof list, &need) != 0)
        return 1;
    fputs(list, parts[3]);
    int failed = 0;
    for (int part = 0; part < 4; part++)
        failed |= fclose(parts[part]) != 0;
    return failed;
}

static int32_t on_read(void *arg, struct tzb_ask *ask, uint8_t *bytes, size_t len)
{
    sched_yield();
    memcpy(bytes, (uint8_t *)arg + ask->first * ask->sector, len);
    return 0;
}

static int32_t on_write(void *arg, struct tzb_ask *ask, const uint8_t *bytes, size_t len)
{
    memcpy((uint8_t *)arg + ask->first * ask->sector, bytes, len);
    sched_yield();
    return 0;
}

static void done(void *arg, int32_t error, const uint8_t *bytes, size_t len)
{
    (void)bytes;
    (void)len;
    if (error != 0)
        faults++;
    atomic_store((atomic_bool *)arg, true);
}

/* Goes on until a request is done. Where nothing is due, another thread is asking a disk. */
static void finish(atomic_bool *is_done, int32_t code)
{
    requests++;
    if (code != 0)
        faults++;
    while (code == 0 && !atomic_load(is_done))
        if (tzb_mesh_step(mesh) == TZB_IDLE)
            sched_yield();
}

static void *work(void *arg)
{
    unsigned place = *(unsigned *)arg;
    char handle[8];
    uint8_t bytes[4 * SECTOR], back[4 * SECTOR];
    snprintf(handle, sizeof handle, "h%u", place);
    if (tzb_mesh_open_handle(mesh, "a", handle, "stripe/s", 1, 1, 0) != 0)
        faults++;
    for (unsigned round = 0; round < ROUNDS; round++) {
        uint64_t offset = (uint64_t)place * PART + round % 12 * SECTOR;
        atomic_bool is_written = false, is_read = false;
        memset(bytes, (int)(place * 31 + round), sizeof bytes);
        finish(&is_written, tzb_mesh_write(mesh, "a", handle, offset, bytes, sizeof bytes, done, &is_written));
        finish(&is_read, tzb_mesh_read(mesh, "a", handle, offset, back, sizeof back, done, &is_read));
        if (memcmp(bytes, back, sizeof back) != 0)
            faults++;
    }
    if (tzb_mesh_close_handle(mesh, "a", handle) != 0)
        faults++;
    return NULL;
}

int main(int count, char **words)
{
    static const struct tzb_disk_ops ops = {sizeof ops, on_read, on_write, NULL, NULL};
    pthread_t threads[THREADS];
    unsigned places[THREADS];
    mesh = tzb_mesh_create();
    if (count != 2 || mesh == NULL || begin_parts(words[1]) != 0 || tzb_mesh_set_lock(mesh, lock, unlock, &mutex) != 0 ||
        tzb_mesh_set_disk(mesh, "d0", &ops, disks[0], LEN) != 0 ||
        tzb_mesh_set_disk(mesh, "d1", &ops, disks[1], LEN) != 0 ||
        tzb_mesh_open(mesh, "disk d0 512\ndisk d1 512\nactor a\n") != 0 || tzb_mesh_run(mesh) != 0 ||
        tzb_mesh_command(mesh, "a", "stripe s 1024 d0 d1", NULL, NULL) != 0 || tzb_mesh_run(mesh) != 0)
        return 1;
    for (unsigned i = 0; i < THREADS; i++) {
        places[i] = i;
        if (pthread_create(&threads[i], NULL, work, &places[i]) != 0)
            return 1;
    }
    for (unsigned i = 0; i < THREADS; i++)
        pthread_join(threads[i], NULL);
    if (end_parts() != 0)
        return 1;
    tzb_mesh_close(mesh);
    printf("%u requests, %s\n", requests, faults == 0 ? "all well" : "not all well");
    return faults != 0;
}
