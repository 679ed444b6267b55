/*
 * mesh.h: what the files of the layer over the proved calls share. Nothing of it is seen outside.
 */
#ifndef TAZBREV_MESH_H
#define TAZBREV_MESH_H

#include "tazbrev.h"

#include <stdarg.h>

#pragma GCC visibility push(hidden)

enum { MOST_DISKS = 16, MOST_ACTORS = 16, MOST_NAME = 16, MOST_LINE = 8192 };

struct disk {
    char name[MOST_NAME + 1];
    struct tzb_disk_ops ops;
    void *arg;
    uint64_t bytes;
    bool is_ram; /* the header says how large it is */
};

/* A command, and who waits for its reply: an element of a ring. */
struct request {
    struct request *next, *previous;
    tzb_done *done;
    void *arg;
    uint8_t *bytes; /* where a read's bytes go, or NULL */
    uint32_t actor, error;
    uint64_t line; /* of the command in a trace */
};

/* What is due, and what a disk said. */
struct turn {
    struct turn *next;
    struct tzb_event event;
    struct tzb_ask ask;
    int32_t said;
    size_t len;
    uint8_t bytes[TZB_MOST_BYTES];
};

struct tzb_mesh {
    struct tzb_core core;
    void (*lock)(void *arg);
    void (*unlock)(void *arg);
    void *lock_arg;
    struct disk set[MOST_DISKS];   /* as they were set, */
    struct disk disks[MOST_DISKS]; /* and those of the header, by their places */
    struct tzb_size sizes[MOST_DISKS];
    char actors[MOST_ACTORS][MOST_NAME + 1];
    uint32_t set_count, disk_count, actor_count, fault_line;
    char fault[80];
    struct request waiting, ready; /* heads of rings: on their way, and replied to at once */
    struct turn *spare, *kept;     /* `kept` have answers for which memory was wanting */
    tzb_listener *listener;        /* or NULL */
    void *listener_arg;
    uint64_t lines; /* of the script that the listener was told */
};

/* How a disk answers. */
enum how { BYTES, DONE, FAILED };

/*
 * What the listener is told, if there is one: the header; a command, with what it was answered; a
 * reply; a step that was made; a disk's answer that was delivered.
 */
void tell_header(struct tzb_mesh *mesh, const char *header, size_t len);
void tell_command(struct tzb_mesh *mesh, struct request *it, int32_t code, const uint8_t *data,
                  size_t len, const char *format, va_list words);
void tell_reply(struct tzb_mesh *mesh, const struct request *it, uint32_t error,
                const uint8_t *bytes, size_t len);
void tell_step(struct tzb_mesh *mesh, const struct tzb_step *step);
void tell_answer(struct tzb_mesh *mesh, uint64_t bio, enum how how, uint32_t done,
                 const uint8_t *bytes, size_t len);

#pragma GCC visibility pop

#endif
