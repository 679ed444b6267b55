/*
 * c-core-refused: the same as c-refused by the proved calls alone, where malloc and realloc fail in turn.
 *
 *     cc -I c -Wl,--wrap=malloc,--wrap=realloc -o refused tests/c-core-refused.c out/libtazbrev.a
 *
 * Prints for how many allocations the outcome was the same as with none that failed, and else which one differed.
 */
#include "tazbrev.h"

#include <stdio.h>
#include <string.h>

enum { SECTOR = 512, SECTORS = 16 };

static uint8_t disk[SECTORS * SECTOR];
static uint8_t room[TZB_MOST_BYTES];
static struct tzb_core core;
static long left; /* how many allocations succeed before one fails; below 0: all */

void *__real_malloc(size_t size);
void *__real_realloc(void *at, size_t size);
void *__wrap_malloc(size_t size);
void *__wrap_realloc(void *at, size_t size);

static bool fails(void)
{
    return left >= 0 && left-- == 0;
}

void *__wrap_malloc(size_t size)
{
    return fails() ? NULL : __real_malloc(size);
}

void *__wrap_realloc(void *at, size_t size)
{
    return fails() ? NULL : __real_realloc(at, size);
}

static const uint8_t *text(const char *word)
{
    return (const uint8_t *)word;
}

/* What a disk answers. */
static int32_t answer(const struct tzb_event *asked)
{
    uint8_t *at = disk + asked->first * SECTOR;
    if (asked->op == TZB_READ)
        return tzb_core_answer_bytes(&core, asked->bio, at, (size_t)asked->count * SECTOR);
    if (asked->op == TZB_WRITE)
        memcpy(at, room, asked->len);
    return tzb_core_answer_done(&core, asked->bio);
}

/* Makes steps until nothing is due, each call again where memory was wanting. The last error, or -1. */
static int go_on(void)
{
    struct tzb_event event;
    int error = 0;
    for (;;) {
        int32_t code = tzb_core_next(&core, &event, room, sizeof room);
        if (code == TZB_NO_MEMORY)
            continue;
        if (code != TZB_OK)
            return -1;
        if (event.kind == TZB_IDLE)
            return error;
        if (event.kind == TZB_REPLY)
            error = (int)event.error;
        if (event.kind == TZB_ASK) {
            do
                code = answer(&event);
            while (code == TZB_NO_MEMORY);
            if (code != TZB_OK)
                return -1;
        }
    }
}

/* A command by its place, again where memory was wanting. */
static int32_t command(int place, uint32_t *error)
{
    static const uint8_t bytes[SECTOR] = "hello";
    const uint8_t *h = text("h");
    switch (place) {
    case 0:
        return tzb_core_open_handle(&core, 0, h, 1, text("md0"), 3, 1, 1, 0, 1, error);
    case 1:
        return tzb_core_submit_write(&core, 0, h, 1, SECTOR, bytes, SECTOR, 2, error);
    case 2:
        return tzb_core_submit_read(&core, 0, h, 1, SECTOR, SECTOR, 3, error);
    case 3:
        return tzb_core_submit_flush(&core, 0, h, 1, 4, error);
    case 4:
        return tzb_core_close_handle(&core, 0, h, 1, 5, error);
    default:
        return tzb_core_pull(&core, 0, text("md0"), 3, 6, error);
    }
}

/* A whole life. The count of steps, or 0 if something went wrong. */
static uint64_t life(void)
{
    static const char header[] = "disk md0 512\nactor a\n";
    const struct tzb_size size = { .sectors = SECTORS, .sector = SECTOR };
    uint32_t fault, error;
    int32_t code;

    memset(disk, 0, sizeof disk);
    do
        code = tzb_core_open(&core, text(header), strlen(header), &size, 1, &fault);
    while (code == TZB_NO_MEMORY);
    bool good = code == TZB_OK && go_on() == 0;
    for (int place = 0; good && place <= 5; place++) {
        do
            code = command(place, &error);
        while (code == TZB_NO_MEMORY);
        good = code >= 0 && error == 0 && go_on() == 0 && tzb_core_waiting(&core) == 0;
        if (place == 2)
            good = good && memcmp(room, "hello", 5) == 0;
    }
    uint64_t steps = good ? tzb_core_steps(&core) : 0;
    tzb_core_close(&core);
    return steps;
}

int main(void)
{
    left = -1;
    uint64_t steps = life();
    for (long place = 0;; place++) {
        left = place;
        uint64_t now = life();
        if (now != steps || steps == 0) {
            printf("allocation %ld: %llu steps, not %llu\n", place, (unsigned long long)now, (unsigned long long)steps);
            return 1;
        }
        if (left >= 0) {
            printf("%ld allocations, %llu steps each time\n", place, (unsigned long long)steps);
            return 0;
        }
    }
}
