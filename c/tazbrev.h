/*
 * tazbrev.h: the live mesh of Tazbrev, FreeBSD's GEOM as a library.
 *
 * A mesh begins with a header, as a script of `geomrun` does: its disks and its actors, a line each.
 *
 *     disk md0 512        a disk of yours, with sectors of 512 bytes
 *     actor a             who gives commands
 *
 * An actor opens a provider, such as `md0`, as a handle under a name of the actor's own, and reads and writes through
 * it. The mesh has no thread and does no I/O: it says which disk to ask, and which request is replied to.
 *
 * There are two sets of calls, for two sorts of callers:
 *
 * - `tzb_mesh_*`, in the second half: names as strings, a disk as a few functions of yours, a function that is called
 *   with each reply. Begin there, with c/examples/first-read.c. These are plain C over the first set, c/tazbrev.c:
 *   tested, and not proved.
 * - `tzb_core_*`, in the first half: numbers and bytes. These are proved (crates/geo_exports): whatever is called in
 *   whatever order, each call does what the call of the same name of the live mesh does, or it is refused and nothing
 *   changes. So each request that was accepted has one reply to come, with its own token, and it is well only if your
 *   disks gave it well exactly the sectors that it names.
 *
 * What you owe, which nothing checks:
 *
 * - No pointer is NULL, also where its length is 0, unless it is said here that it may be. Each leads to as much memory
 *   as its length or its type says. No two arguments of a call overlap, but such as are only read.
 * - A mesh or a handle is only passed to these calls, and isn't used once it is closed. One call at a time has it,
 *   unless `tzb_mesh_set_lock` was called. Different ones may be used at once.
 * - `malloc`, `realloc` and `free` are of one allocator and align as the C library's do. No call is made from a signal
 *   handler, nor in the child after a fork of a process with threads.
 *
 * Link with `pkg-config --cflags --libs tazbrev`. docs/LIVE.md says how it is built.
 *
 * The numbers of a disk and an actor are their places in the header, from 0 on. A name of a handle, an actor or a disk
 * has 1 to 16 letters, digits, `_` or `-`; one of a provider has 1 to 63 of these, `.` and `/`.
 */
#ifndef TAZBREV_H
#define TAZBREV_H

#include <stdbool.h>
#include <stddef.h>
#include <stdint.h>

#ifdef __cplusplus
extern "C" {
#endif

/* The version of this header. `tzb_version` tells that of the library. */
#define TZB_VERSION "1.0.0"

/* ------------------------------------------------ The proved calls ------------------------------------------------ */

/*
 * Texts are bytes with a length here, and no NUL is wanted behind them. Each command has a token, a number that you
 * choose, and the same number comes with its reply. `tzb_core_next` makes one step: call it until nothing is due, then
 * wait until a disk has an answer for you or a command comes. Each call of a handle is of the same thread.
 */

/* What calls answer. Numbers are only added, and none ever changes. */
enum {
    TZB_OK = 0,         /* done; of a command: it is on its way, and its reply comes as an event */
    TZB_REPLIED = 1,    /* the command was replied to at once: `*error` is 0 or its error */
    TZB_NO_MEMORY = -1, /* memory was wanting; nothing changed */
    TZB_CLOSED = -2,    /* the handle holds no mesh */
    TZB_OPEN = -3,      /* the handle holds a mesh already */
    TZB_WRONG = -4,     /* an argument doesn't have its form; nothing changed */
    TZB_UNFIT = -5,     /* the mesh isn't so that this can be done; nothing changed */
    TZB_ROOM = -6       /* there is too little room for bytes; nothing changed */
};

/* Why a command or a request is refused by the mesh, as in errno(2). 0 is no error. Numbers are only added. */
enum {
    TZB_ENOENT = 1,    /* there is none of this name */
    TZB_EEXIST = 2,    /* the name is in use */
    TZB_EBADF = 3,     /* there is no such handle */
    TZB_ENXIO = 4,     /* the provider carries an error, the handle is dead, or the disk of a pull doesn't stand */
    TZB_EPERM = 5,     /* the access counts forbid it, or the handle wasn't opened for it */
    TZB_EOVERFLOW = 6, /* a count would pass its limit */
    TZB_EBUSY = 7,     /* it is in use */
    TZB_EINVAL = 8,    /* an offset, a length or a size doesn't fit */
    TZB_EIO = 9,       /* a range past the end, or a disk that failed */
    TZB_ELOOP = 10,    /* a geom would reach itself */
    TZB_EDEEP = 11     /* a geom would have too great a rank */
};

/* What is due. */
enum {
    TZB_IDLE = 0,   /* nothing, until a disk answers or a command comes */
    TZB_ASK = 1,    /* a disk is asked: give its answer for the bio, now or later, in any order */
    TZB_REPLY = 2,  /* the reply to the request that carries the token */
    TZB_MOVED = 3,  /* a step was made inside the mesh: call again */
    TZB_CHANGED = 4 /* the same, and the step may have changed what `tzb_core_list` shows: call again */
};

/* What a disk is asked for. */
enum {
    TZB_READ = 1,
    TZB_WRITE = 2,
    TZB_DELETE = 3, /* the sectors read as zeros then */
    TZB_FLUSH = 4   /* what was written is kept */
};

/* The most bytes that a request has, and so the room that `tzb_core_next` wants. */
#define TZB_MOST_BYTES 32768

/* A handle. Make one of zeros: `struct tzb_core core = { 0 };`. Its fields are the library's own. */
struct tzb_core {
    bool is_open;
    void *held;
};

/* How large a disk is. */
struct tzb_size {
    uint64_t sectors; /* at least 1, and at most 2^40 bytes; of a `ram` of the header just what the header says */
    uint32_t sector;  /* bytes of a sector, as the header says */
    uint32_t spare;   /* 0 */
};

/* What is due. Fields that the kind doesn't speak of are 0. */
struct tzb_event {
    uint32_t kind;  /* TZB_IDLE .. TZB_CHANGED */
    uint32_t op;    /* ASK: TZB_READ .. TZB_FLUSH */
    uint32_t disk;  /* ASK: the disk's place in the header */
    uint32_t count; /* ASK: how many sectors */
    uint64_t bio;   /* ASK: for what the answer is */
    uint64_t first; /* ASK: the first sector */
    uint64_t token; /* REPLY */
    uint64_t len;   /* how many bytes came: of a WRITE that is asked, or of a READ that is replied to */
    uint32_t error; /* REPLY: 0 or TZB_ENOENT .. */
    uint32_t spare; /* 0 */
    uint64_t generation; /* CHANGED: what `tzb_core_generation` answers now */
};

/*
 * Opens a handle with a header, and with the size of each of its disks in the order of the header. Commands in the text
 * aren't made, and sizes past the last disk aren't read. The text and the sizes stay yours.
 *
 * TZB_OPEN: it is open, and stays as it was. TZB_WRONG: the text isn't a script (`*fault` is the first line against
 * the grammar, from 1 on), or has 2^32 bytes or more, or a size is missing or doesn't fit (`*fault` is 0 for these).
 * TZB_NO_MEMORY. After each the handle is as it was, and `*fault` is 0 but for a line.
 */
int32_t tzb_core_open(struct tzb_core *core, const uint8_t *header, size_t header_len, const struct tzb_size *sizes,
                      size_t size_count, uint32_t *fault);

/* Closes a handle and frees all that it holds; requests that wait get no reply. It may be closed, or opened again. */
void tzb_core_close(struct tzb_core *core);

/*
 * Each command below is of an actor and carries a token, and answers so:
 *
 * TZB_OK: it is on its way; its reply comes by `tzb_core_next`, with the token. TZB_REPLIED: it was replied to at
 * once, and no event of it comes; `*error` is its error, or 0 where it is well. TZB_WRONG: a name or a number doesn't
 * have its form, whether the handle is open or not. TZB_CLOSED. TZB_UNFIT: there is no such actor in the header.
 * TZB_NO_MEMORY: also where 2^32 requests wait. After each refusal nothing has changed, and `*error` is 0. What is
 * passed stays yours.
 */

/* Opens a provider as a handle, with so many rights to read, to write and to exclude others: 0 to 9 each, not all 0. */
int32_t tzb_core_open_handle(struct tzb_core *core, uint32_t actor, const uint8_t *handle, size_t handle_len,
                             const uint8_t *provider, size_t provider_len, uint32_t r, uint32_t w, uint32_t e,
                             uint64_t token, uint32_t *error);

/* Closes a handle, if none of its requests is out (TZB_EBUSY). */
int32_t tzb_core_close_handle(struct tzb_core *core, uint32_t actor, const uint8_t *handle, size_t handle_len,
                              uint64_t token, uint32_t *error);

/* Reads `len` bytes from `offset` on: whole sectors, at most TZB_MOST_BYTES (else TZB_EINVAL). */
int32_t tzb_core_submit_read(struct tzb_core *core, uint32_t actor, const uint8_t *handle, size_t handle_len,
                             uint64_t offset, uint64_t len, uint64_t token, uint32_t *error);

/* Writes bytes from `offset` on, as TZB_MOST_BYTES says. TZB_WRONG for none, or for more than 65,536. */
int32_t tzb_core_submit_write(struct tzb_core *core, uint32_t actor, const uint8_t *handle, size_t handle_len,
                              uint64_t offset, const uint8_t *bytes, size_t len, uint64_t token, uint32_t *error);

/* Deletes `len` bytes from `offset` on: they read as zeros then. */
int32_t tzb_core_submit_delete(struct tzb_core *core, uint32_t actor, const uint8_t *handle, size_t handle_len,
                               uint64_t offset, uint64_t len, uint64_t token, uint32_t *error);

/* Has the disks keep what was written. */
int32_t tzb_core_submit_flush(struct tzb_core *core, uint32_t actor, const uint8_t *handle, size_t handle_len,
                              uint64_t token, uint32_t *error);

/* Lets a disk of the header stand that comes `later`, or that was pulled. */
int32_t tzb_core_insert(struct tzb_core *core, uint32_t actor, const uint8_t *disk, size_t disk_len, uint64_t token,
                        uint32_t *error);

/* Takes a disk away: its geom withers, and is let go once nothing uses it. */
int32_t tzb_core_pull(struct tzb_core *core, uint32_t actor, const uint8_t *disk, size_t disk_len, uint64_t token,
                      uint32_t *error);

/*
 * Any command, as a text: a script with one command line, such as "actor a\na concat big md0 md1\n". It is given as of
 * the line's actor, whose number is its place in this text: so declare the mesh's actors here in their order. No disk
 * need be declared.
 *
 * TZB_WRONG: it isn't a script, it has no command or several, or it has 2^32 bytes or more. `mesh` is well, but its
 * lines aren't told: see `tzb_core_list`. A `sync` or a `settle` that has to wait is TZB_UNFIT: give it again.
 */
int32_t tzb_core_command(struct tzb_core *core, const uint8_t *script, size_t script_len, uint64_t token,
                         uint32_t *error);

/*
 * Makes the step that is due, and says what is due then (TZB_OK). `bytes` is room for TZB_MOST_BYTES: the first
 * `event->len` of it are what a disk is to write, or what a request read.
 *
 * TZB_ROOM: `len` is smaller. TZB_CLOSED. TZB_NO_MEMORY: nothing changed, so call it again. After each `event` is
 * TZB_IDLE, and the bytes are as they were.
 */
int32_t tzb_core_next(struct tzb_core *core, struct tzb_event *event, uint8_t *bytes, size_t len);

/* A step that is due, for whoever writes a trace (docs/LIVE.md). Fields that the kind doesn't speak of are 0. */
struct tzb_step {
    uint32_t kind;  /* TZB_STEP_NONE .. TZB_STEP_WASH */
    uint32_t place; /* TAKE: the disk's place in the header */
    uint64_t bio;   /* UP, TAKE, START */
};

enum {
    TZB_STEP_NONE = 0,  /* nothing is due */
    TZB_STEP_UP = 1,    /* a bio that is done goes up */
    TZB_STEP_TAKE = 2,  /* a disk takes a bio */
    TZB_STEP_START = 3, /* a bio begins its way down */
    TZB_STEP_JUDGE = 4, /* the taste under way goes on */
    TZB_STEP_EVENT = 5, /* the oldest event is done */
    TZB_STEP_REAP = 6,  /* a dead handle is let go */
    TZB_STEP_WASH = 7   /* a part of a withering geom goes */
};

/* The step that `tzb_core_next` would make now. Nothing is made. TZB_CLOSED: then it is TZB_STEP_NONE. */
int32_t tzb_core_due(struct tzb_core *core, struct tzb_step *step);

/*
 * A disk's answer for a bio that it was asked for. TZB_UNFIT: the bio wasn't asked or is answered, or the answer isn't
 * one to what was asked. TZB_CLOSED. TZB_NO_MEMORY. After each nothing has changed, and the answer may be given again.
 */

/* A READ was done: its bytes, `count` sectors. They stay yours. */
int32_t tzb_core_answer_bytes(struct tzb_core *core, uint64_t bio, const uint8_t *bytes, size_t len);

/* A WRITE, a DELETE or a FLUSH was done. */
int32_t tzb_core_answer_done(struct tzb_core *core, uint64_t bio);

/* It failed after it had done so many sectors; 0 for a READ and a FLUSH. */
int32_t tzb_core_answer_failed(struct tzb_core *core, uint64_t bio, uint32_t done);

/* How many requests wait for their reply; 0 for a handle that is closed. */
uint64_t tzb_core_waiting(struct tzb_core *core);

/* How many steps were made, counted up to 2^64 and then from 0 again; 0 for a handle that is closed. */
uint64_t tzb_core_steps(struct tzb_core *core);

/*
 * How many of the steps were of the graph, counted so too; 0 for a handle that is closed. While it stays as it was,
 * nothing was done that may change geoms, providers, consumers, their counts or handles.
 */
uint64_t tzb_core_generation(struct tzb_core *core);

/*
 * The mesh as text, line by line as `geomrun` prints it at its end: TZB_OK, and `*need` bytes of it stand at the front
 * of `bytes`. TZB_ROOM: `len` is smaller than `*need`, which is how many are wanted. TZB_CLOSED and TZB_NO_MEMORY:
 * `*need` is 0. After each refusal the bytes are as they were. The mesh isn't changed.
 */
int32_t tzb_core_list(struct tzb_core *core, uint8_t *bytes, size_t len, uint64_t *need);

/* ------------------------------------- A mesh with functions for its disks ---------------------------------------- */

/*
 * These are not proved. Strings end in a NUL, and yours are copied. Each call has three sorts of answers:
 *
 * - 0, or more where it says so: it is done, or on its way.
 * - a number of the mesh, TZB_ENOENT to TZB_EDEEP: the mesh refused the command. That is a reply, and no other comes.
 * - a negative number, TZB_NO_MEMORY to TZB_ROOM: the library refused the call.
 *
 * After the last two nothing has changed, and a function that you passed along isn't called for it.
 */

/* A mesh: its disks, its requests, and a proved handle. */
struct tzb_mesh;

/* Calls that a library with another version may lack. */
#define TZB_HAVE_MESH 1
#define TZB_HAVE_MESH_COMMAND 1
#define TZB_HAVE_MESH_LIST 1
#define TZB_HAVE_MESH_LISTENER 1

/* What a function of a disk says that answers later. */
#define TZB_LATER 1

/* What a disk is asked. It is only there until the function returns, but for what you copied. More may be added. */
struct tzb_ask {
    uint64_t bio;    /* for what a later answer is */
    uint64_t first;  /* the first sector */
    uint32_t count;  /* how many sectors; 0 for a flush */
    uint32_t sector; /* bytes of a sector */
    uint32_t done;   /* set it where a write or a delete fails: how many sectors were done before; 0 at first */
    uint32_t spare;  /* 0 */
};

/*
 * What a disk does. Each function gets the `arg` that you gave with the disk, and answers 0 (done), TZB_LATER (the
 * answer comes by a `tzb_mesh_answer_*`, from any thread), or any other number: it failed. `len` is the bytes of the
 * sectors, and `bytes` is only yours until the function returns. They are called from within `tzb_mesh_step` and
 * `tzb_mesh_run`, without the lock, and one at a time for each disk: a disk is asked again once it has answered.
 * A function may make all calls of its mesh but `tzb_mesh_close`.
 */
struct tzb_disk_ops {
    size_t size; /* sizeof (struct tzb_disk_ops), since more may be added */
    int32_t (*on_read)(void *arg, struct tzb_ask *ask, uint8_t *bytes, size_t len);
    int32_t (*on_write)(void *arg, struct tzb_ask *ask, const uint8_t *bytes, size_t len); /* NULL: writes fail */
    int32_t (*on_delete)(void *arg, struct tzb_ask *ask); /* NULL: `on_write` is given zeros */
    int32_t (*on_flush)(void *arg, struct tzb_ask *ask);  /* NULL: done at once */
};

/*
 * Called with the reply to a request: `error` is 0, a number of the mesh, or TZB_CLOSED if the mesh was closed before.
 * `bytes` are what was read, if the request has no room of its own for them, and stay until the function returns; else
 * `len` is 0. It is called once, from within `tzb_mesh_step`, `tzb_mesh_run` or `tzb_mesh_close`, without the lock, and
 * never from within the call that gives the request. It may make all calls of its mesh but `tzb_mesh_close`.
 */
typedef void tzb_done(void *arg, int32_t error, const uint8_t *bytes, size_t len);

/* The parts of a trace. */
enum {
    TZB_TOLD_SCRIPT = 0, /* the header, and each command as a line behind it */
    TZB_TOLD_STEP = 1,   /* the sizes of disks, and each step as a line */
    TZB_TOLD_REPLY = 2   /* each reply as a line, with the number of the command's line in front */
};

/*
 * Told what a mesh does, as text of a trace that `geomrun verify` judges (docs/LIVE.md). `len` bytes of text, without a
 * NUL, go behind what came before of the same part; they may be a piece of a line. It is called with the lock, where
 * the thing is done, so it makes no call of the mesh.
 */
typedef void tzb_listener(void *arg, int32_t part, const char *text, size_t len);

/* The version of the library, as TZB_VERSION. */
const char *tzb_version(void);

/* The name of a number, such as "TZB_EBUSY", or "?". */
const char *tzb_error_name(int32_t number);

/* What a number says, in a few words. */
const char *tzb_strerror(int32_t number);

/* The number of the C library's errno(3) that is nearest: EBUSY for TZB_EBUSY, EINVAL for TZB_EDEEP, 0 for 0. */
int tzb_errno(int32_t number);

/*
 * Has all memory of the library come from functions of yours, which do what the C library's do. To be called before any
 * other thread and before the first mesh or handle. TZB_OPEN: a mesh was made, or memory taken, and nothing changes.
 */
int32_t tzb_set_alloc(void *(*alloc)(size_t size), void *(*resize)(void *at, size_t size), void (*release)(void *at));

/* A mesh that isn't open yet, for `tzb_mesh_close` to free. NULL: memory was wanting. */
struct tzb_mesh *tzb_mesh_create(void);

/*
 * Lets several threads call for the mesh at once. `lock` and `unlock` are called around what is short: no function of
 * yours is called in between, and nothing is waited for. Call it before `tzb_mesh_open`, from one thread (else
 * TZB_OPEN). That a mesh goes from thread to thread is tested; the proofs speak of one.
 */
int32_t tzb_mesh_set_lock(struct tzb_mesh *mesh, void (*lock)(void *arg), void (*unlock)(void *arg), void *arg);

/*
 * Has a listener told of all that the mesh does, or nobody for NULL. Call it before `tzb_mesh_open` (else TZB_OPEN).
 * Give no command `mesh` then, since its lines aren't told.
 */
int32_t tzb_mesh_set_listener(struct tzb_mesh *mesh, tzb_listener *listener, void *arg);

/*
 * Says what a disk of the header does, by its name, and how many bytes it has: whole sectors. The functions are copied,
 * and `arg` is handed to them. A `ram` disk of the header needs none: the library has memory for it.
 *
 * TZB_OPEN: the mesh is open. TZB_WRONG: the name or `ops->size` doesn't have its form, or `on_read` is NULL.
 * TZB_UNFIT: there are 16 disks already. For a name that was given before, the last call counts.
 */
int32_t tzb_mesh_set_disk(struct tzb_mesh *mesh, const char *disk, const struct tzb_disk_ops *ops, void *arg,
                          uint64_t bytes);

/*
 * Opens the mesh with a header. Commands behind the header aren't made. Then call `tzb_mesh_run`: what stands on the
 * disks is found by reading them.
 *
 * TZB_OPEN. TZB_WRONG: a line isn't one of a script, a disk has no functions, or its size doesn't fit; then
 * `tzb_mesh_fault` tells which. TZB_NO_MEMORY. After each it may be tried again.
 */
int32_t tzb_mesh_open(struct tzb_mesh *mesh, const char *header);

/* What the last `tzb_mesh_open` found wrong, as a sentence, or "". It is yours until the next call of the mesh. */
const char *tzb_mesh_fault(const struct tzb_mesh *mesh);

/* The line of that fault, from 1 on, or 0 if it is of no line. */
uint32_t tzb_mesh_fault_line(const struct tzb_mesh *mesh);

/*
 * Closes a mesh, open or not, and frees it. Requests that wait are told TZB_CLOSED. No other call may be under way, nor
 * a disk's later answer come afterwards. NULL does nothing.
 */
void tzb_mesh_close(struct tzb_mesh *mesh);

/*
 * Commands. `actor` is a name of the header. All may answer TZB_CLOSED: the mesh isn't open. TZB_WRONG: a name or a
 * number doesn't have its form. TZB_UNFIT: there is no such actor. TZB_NO_MEMORY. Or a number of the mesh.
 */

/* Opens a provider as a handle, with so many rights to read, to write and to exclude others: 0 to 9 each, not all 0. */
int32_t tzb_mesh_open_handle(struct tzb_mesh *mesh, const char *actor, const char *handle, const char *provider,
                             uint32_t r, uint32_t w, uint32_t e);

/* Closes a handle, if none of its requests is out (TZB_EBUSY). */
int32_t tzb_mesh_close_handle(struct tzb_mesh *mesh, const char *actor, const char *handle);

/* Lets a disk of the header stand that comes `later`, or that was pulled. */
int32_t tzb_mesh_insert(struct tzb_mesh *mesh, const char *actor, const char *disk);

/* Takes a disk away: its geom withers, and is let go once nothing uses it. */
int32_t tzb_mesh_pull(struct tzb_mesh *mesh, const char *actor, const char *disk);

/*
 * A command of the script language by its text, such as "nop md0 0 4096 2" (docs/geomrun.8). 0: it was done, or is on
 * its way; in both cases `done` is called once. NULL for `done`: nothing is called. TZB_WRONG: it is no such command.
 * TZB_UNFIT: also a `sync` or a `settle` that has to wait.
 */
int32_t tzb_mesh_command(struct tzb_mesh *mesh, const char *actor, const char *command, tzb_done *done, void *arg);

/*
 * Requests: whole sectors, at most TZB_MOST_BYTES (else TZB_EINVAL). 0: it is on its way, and `done` is called once.
 * NULL for `done`: nothing is called.
 */

/*
 * Reads `len` bytes from `offset` on to `bytes`, which has to stay until `done` is called. NULL for `bytes`: `done` is
 * given them.
 */
int32_t tzb_mesh_read(struct tzb_mesh *mesh, const char *actor, const char *handle, uint64_t offset, void *bytes,
                      size_t len, tzb_done *done, void *arg);

/* Writes bytes from `offset` on. They are copied. */
int32_t tzb_mesh_write(struct tzb_mesh *mesh, const char *actor, const char *handle, uint64_t offset, const void *bytes,
                       size_t len, tzb_done *done, void *arg);

/* Deletes `len` bytes from `offset` on: they read as zeros then. */
int32_t tzb_mesh_delete(struct tzb_mesh *mesh, const char *actor, const char *handle, uint64_t offset, uint64_t len,
                        tzb_done *done, void *arg);

/* Has the disks keep what was written. */
int32_t tzb_mesh_flush(struct tzb_mesh *mesh, const char *actor, const char *handle, tzb_done *done, void *arg);

/*
 * Does the one thing that is due, and says what it was: TZB_ASK, TZB_REPLY, TZB_MOVED, or TZB_CHANGED, after which
 * `tzb_mesh_list` may show something else; TZB_IDLE if there was nothing. TZB_CLOSED. TZB_NO_MEMORY: call it again;
 * what a disk has done is kept.
 */
int32_t tzb_mesh_step(struct tzb_mesh *mesh);

/*
 * Goes on until nothing is due: 0. What still waits, waits for a disk that answers later, or that another thread is
 * asking; whoever answers has to go on. Whether a step was TZB_CHANGED is told by `tzb_mesh_generation`. TZB_CLOSED.
 * TZB_NO_MEMORY, as above.
 */
int32_t tzb_mesh_run(struct tzb_mesh *mesh);

/*
 * The later answers of a disk: a read was done, with its bytes; a write, a delete or a flush was done; it failed after
 * so many sectors, 0 for a read and a flush. Then `tzb_mesh_run` goes on.
 *
 * TZB_UNFIT: the bio isn't asked or is answered, or that is no answer to it. TZB_CLOSED. TZB_NO_MEMORY.
 */
int32_t tzb_mesh_answer_read(struct tzb_mesh *mesh, uint64_t bio, const void *bytes, size_t len);
int32_t tzb_mesh_answer_done(struct tzb_mesh *mesh, uint64_t bio);
int32_t tzb_mesh_answer_failed(struct tzb_mesh *mesh, uint64_t bio, uint32_t done);

/*
 * The mesh as `geomrun` prints it, with a NUL behind it. `*need` is the room it wants, with the NUL.
 *
 * TZB_ROOM: `room` is smaller, and `text` as it was; 0 asks for the size alone, and `text` may be NULL then.
 * TZB_CLOSED. TZB_NO_MEMORY.
 */
int32_t tzb_mesh_list(struct tzb_mesh *mesh, char *text, size_t room, size_t *need);

/* How many requests wait for their reply; 0 if the mesh isn't open. */
uint64_t tzb_mesh_waiting(struct tzb_mesh *mesh);

/*
 * How many steps and commands may have changed what `tzb_mesh_list` shows, as `tzb_core_generation` counts them; 0 if
 * the mesh isn't open. While it stays as it was, the list does too.
 */
uint64_t tzb_mesh_generation(struct tzb_mesh *mesh);

#ifdef __cplusplus
}
#endif

#endif
