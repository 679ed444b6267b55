/*
 * example: a mesh over one disk in memory. Writes a sector, reads it back, and prints what was read.
 *
 *     cc -O2 -I c -o example c/example.c libgeo_exports.a liblibc_c.a
 */
#include "tazbrev.h"

#include <stdio.h>
#include <string.h>

enum { SECTOR = 512, SECTORS = 16 };

static uint8_t disk[SECTORS * SECTOR];
static uint8_t room[TZB_MOST_BYTES];
static struct tzb_core core;

static const uint8_t *text(const char *word)
{
    return (const uint8_t *)word;
}

/* Does what the disk is asked, and answers. */
static int32_t answer(const struct tzb_event *asked)
{
    uint8_t *at = disk + asked->first * SECTOR;
    switch (asked->op) {
    case TZB_READ:
        return tzb_core_answer_bytes(&core, asked->bio, at, (size_t)asked->count * SECTOR);
    case TZB_WRITE:
        memcpy(at, room, asked->len);
        return tzb_core_answer_done(&core, asked->bio);
    case TZB_DELETE:
        memset(at, 0, (size_t)asked->count * SECTOR);
        return tzb_core_answer_done(&core, asked->bio);
    default:
        return tzb_core_answer_done(&core, asked->bio);
    }
}

/* Makes steps until nothing is due, and tells each reply. -1 if a call is refused. */
static int go_on(void)
{
    struct tzb_event event;
    for (;;) {
        if (tzb_core_next(&core, &event, room, sizeof room) != TZB_OK)
            return -1;
        switch (event.kind) {
        case TZB_ASK:
            if (answer(&event) != TZB_OK)
                return -1;
            break;
        case TZB_REPLY:
            printf("token %llu: error %u", (unsigned long long)event.token, (unsigned)event.error);
            if (event.len > 0)
                printf(", %llu bytes: %.5s", (unsigned long long)event.len, (const char *)room);
            printf("\n");
            break;
        case TZB_IDLE:
            return 0;
        }
    }
}

/* 0 if the command was accepted, or was replied to at once and well. */
static int is_refused(int32_t code, uint32_t error)
{
    return code < 0 || error != 0;
}

int main(void)
{
    static const char header[] = "disk md0 512\nactor a\n";
    const struct tzb_size size = { .sectors = SECTORS, .sector = SECTOR };
    uint8_t bytes[SECTOR] = "hello";
    uint32_t fault, error;

    if (tzb_core_open(&core, text(header), strlen(header), &size, 1, &fault) != TZB_OK || go_on() != 0)
        return 1;
    int32_t code = tzb_core_open_handle(&core, 0, text("h"), 1, text("md0"), 3, 1, 1, 0, 1, &error);
    if (is_refused(code, error) || go_on() != 0)
        return 1;
    code = tzb_core_submit_write(&core, 0, text("h"), 1, 3 * SECTOR, bytes, sizeof bytes, 2, &error);
    if (is_refused(code, error) || go_on() != 0)
        return 1;
    code = tzb_core_submit_read(&core, 0, text("h"), 1, 3 * SECTOR, SECTOR, 3, &error);
    if (is_refused(code, error) || go_on() != 0)
        return 1;
    code = tzb_core_close_handle(&core, 0, text("h"), 1, 4, &error);
    if (is_refused(code, error) || go_on() != 0)
        return 1;
    printf("%llu wait, %llu steps\n", (unsigned long long)tzb_core_waiting(&core),
           (unsigned long long)tzb_core_steps(&core));
    tzb_core_close(&core);
    return 0;
}
