/*
 * c-refused: each allocation of a small mesh is refused in turn, and the call that says so is made again. The mesh, its
 * replies and its disk have to be as without. Prints how many allocations there were.
 */
#include <tazbrev.h>

#include <stdio.h>
#include <stdlib.h>
#include <string.h>

enum { SECTOR = 512, LEN = 32 * SECTOR };

static uint8_t disk[LEN], back[4 * SECTOR];
static char text[8192];
static long left; /* how many allocations succeed before one fails; below 0: all */
static int replies;

static bool fails(void)
{
    return left >= 0 && left-- == 0;
}

static void *give(size_t size)
{
    return fails() ? NULL : malloc(size);
}

static void *resize(void *at, size_t size)
{
    return fails() ? NULL : realloc(at, size);
}

static int32_t on_read(void *arg, struct tzb_ask *ask, uint8_t *bytes, size_t len)
{
    (void)arg;
    memcpy(bytes, disk + ask->first * ask->sector, len);
    return 0;
}

static int32_t on_write(void *arg, struct tzb_ask *ask, const uint8_t *bytes, size_t len)
{
    (void)arg;
    memcpy(disk + ask->first * ask->sector, bytes, len);
    return 0;
}

static void done(void *arg, int32_t error, const uint8_t *bytes, size_t len)
{
    (void)arg;
    (void)bytes;
    (void)len;
    replies += error == 0 ? 1 : 1000;
}

/* A call by its place; 0 behind the last. */
static bool is_call(struct tzb_mesh *mesh, int place, int32_t *code)
{
    static const struct tzb_disk_ops ops = {sizeof ops, on_read, on_write, NULL, NULL};
    static uint8_t bytes[4 * SECTOR] = "hello";
    size_t need;
    switch (place) {
    case 0:
        *code = tzb_mesh_set_disk(mesh, "md0", &ops, NULL, LEN);
        return true;
    case 1:
        *code = tzb_mesh_open(mesh, "disk md0 512\nram md1 512 32\nactor a\n");
        return true;
    case 2:
        *code = tzb_mesh_command(mesh, "a", "stripe s 1024 md0 md1", done, NULL);
        return true;
    case 3:
        *code = tzb_mesh_open_handle(mesh, "a", "h", "stripe/s", 1, 1, 1);
        return true;
    case 4:
        *code = tzb_mesh_write(mesh, "a", "h", SECTOR, bytes, sizeof bytes, done, NULL);
        return true;
    case 5:
        *code = tzb_mesh_read(mesh, "a", "h", SECTOR, back, sizeof back, done, NULL);
        return true;
    case 6:
        *code = tzb_mesh_delete(mesh, "a", "h", 8 * SECTOR, 8 * SECTOR, done, NULL);
        return true;
    case 7:
        *code = tzb_mesh_flush(mesh, "a", "h", done, NULL);
        return true;
    case 8:
        *code = tzb_mesh_close_handle(mesh, "a", "h");
        return true;
    case 9:
        *code = tzb_mesh_pull(mesh, "a", "md1");
        return true;
    case 10:
        *code = tzb_mesh_list(mesh, text, sizeof text, &need);
        return true;
    default:
        return false;
    }
}

/* A whole life, in which each call that memory was wanting for is made again. The count of calls, or -1. */
static int life(void)
{
    struct tzb_mesh *mesh = tzb_mesh_create();
    int32_t code = 0;
    int place = 0;
    if (mesh == NULL)
        mesh = tzb_mesh_create();
    memset(disk, 0, sizeof disk);
    memset(back, 0, sizeof back);
    replies = 0;
    for (; code == 0; place++) {
        bool is_left;
        do
            is_left = is_call(mesh, place, &code);
        while (is_left && code == TZB_NO_MEMORY);
        if (!is_left)
            break;
        while (code == 0 && place > 0 && (code = tzb_mesh_run(mesh)) == TZB_NO_MEMORY)
            code = 0;
    }
    bool is_good = code == 0 && replies == 5 && memcmp(back, "hello", 5) == 0 && tzb_mesh_waiting(mesh) == 0;
    tzb_mesh_close(mesh);
    return is_good ? place : -1;
}

int main(void)
{
    static char wanted[sizeof text];
    static uint8_t held[LEN];
    left = -1;
    tzb_set_alloc(give, resize, free);
    int calls = life();
    memcpy(wanted, text, sizeof text);
    memcpy(held, disk, LEN);
    for (long place = 0; calls > 0; place++) {
        left = place;
        if (life() != calls || strcmp(text, wanted) != 0 || memcmp(held, disk, LEN) != 0) {
            printf("allocation %ld: not as without\n", place);
            return 1;
        }
        if (left >= 0) {
            printf("%ld allocations\n", place);
            return 0;
        }
    }
    printf("the first life isn't right\n");
    return 1;
}
