/*
 * tazbrev: a mesh with names, and with functions for its disks, over the proved calls.
 *
 * UNPROVED. What is a script, which disk is asked for what, and what is replied to whom, is the
 * proved part's to say. Here names become numbers, a disk's functions are called, and each reply
 * goes to the function that waits for it: a token is the address of a `struct request`.
 */
#define _XOPEN_SOURCE 700
#include "mesh.h"

#include <inttypes.h>
#include <search.h>
#include <stdatomic.h>
#include <stdio.h>
#include <stdlib.h>
#include <string.h>

/* A text as the proved calls have it. */
#define TEXT(word) (const uint8_t *)(word), strlen(word)

/* ---- Memory, for which the proved part asks by three names ---- */

static struct {
    void *(*alloc)(size_t size);
    void *(*resize)(void *at, size_t size);
    void (*release)(void *at);
    atomic_bool is_used;
} memory = {malloc, realloc, free, false};

int32_t tzb_set_alloc(void *(*alloc)(size_t size), void *(*resize)(void *at, size_t size),
                      void (*release)(void *at))
{
    if (memory.is_used)
        return TZB_OPEN;
    memory.alloc = alloc;
    memory.resize = resize;
    memory.release = release;
    return TZB_OK;
}

static void *take(size_t size)
{
    atomic_store_explicit(&memory.is_used, true, memory_order_relaxed);
    return memory.alloc(size);
}

struct got {
    uint64_t is_there;
    void *at; /* never NULL */
};
static uint8_t nothing;

struct got rattle_alloc(size_t size, size_t align)
{
    void *at = take(size != 0 ? size : align);
    return (struct got){at != NULL, at != NULL ? at : &nothing};
}

struct got rattle_realloc(void *at, size_t old_size, size_t size, size_t align)
{
    (void)old_size;
    at = memory.resize(at, size != 0 ? size : align);
    return (struct got){at != NULL, at != NULL ? at : &nothing};
}

void rattle_dealloc(void *at)
{
    memory.release(at);
}

/* ---- Opening ---- */

static void no_lock(void *arg)
{
    (void)arg;
}

struct tzb_mesh *tzb_mesh_create(void)
{
    struct tzb_mesh *mesh = take(sizeof *mesh);
    if (mesh == NULL)
        return NULL;
    *mesh = (struct tzb_mesh){.lock = no_lock, .unlock = no_lock};
    mesh->waiting.next = mesh->waiting.previous = &mesh->waiting;
    mesh->ready.next = mesh->ready.previous = &mesh->ready;
    return mesh;
}

int32_t tzb_mesh_set_lock(struct tzb_mesh *mesh, void (*lock)(void *arg), void (*unlock)(void *arg),
                          void *arg)
{
    if (mesh->core.is_open)
        return TZB_OPEN;
    mesh->lock = lock;
    mesh->unlock = unlock;
    mesh->lock_arg = arg;
    return TZB_OK;
}

/* The disk that was set under this name, or the first one that wasn't set. */
static struct disk *disk_set(struct tzb_mesh *mesh, const char *name)
{
    struct disk *it = mesh->set;
    while (it < mesh->set + mesh->set_count && strcmp(it->name, name) != 0)
        it++;
    return it;
}

int32_t tzb_mesh_set_disk(struct tzb_mesh *mesh, const char *disk, const struct tzb_disk_ops *ops,
                          void *arg, uint64_t bytes)
{
    struct disk *it = disk_set(mesh, disk);
    if (mesh->core.is_open)
        return TZB_OPEN;
    if (strlen(disk) > MOST_NAME || ops->size < sizeof *ops || ops->on_read == NULL)
        return TZB_WRONG;
    if (it == mesh->set + MOST_DISKS)
        return TZB_UNFIT;
    mesh->set_count += it == mesh->set + mesh->set_count;
    *it = (struct disk){.ops = *ops, .arg = arg, .bytes = bytes};
    strcpy(it->name, disk);
    return TZB_OK;
}

/* A disk in memory, which is its `arg`. */
static int32_t ram_read(void *arg, struct tzb_ask *ask, uint8_t *bytes, size_t len)
{
    memcpy(bytes, (uint8_t *)arg + ask->first * ask->sector, len);
    return 0;
}

static int32_t ram_write(void *arg, struct tzb_ask *ask, const uint8_t *bytes, size_t len)
{
    memcpy((uint8_t *)arg + ask->first * ask->sector, bytes, len);
    return 0;
}

static const struct tzb_disk_ops ram_ops = {sizeof ram_ops, ram_read, ram_write, NULL, NULL};

/* A disk of the header gets its place. Answers what is against it, or NULL. */
static const char *place_disk(struct tzb_mesh *mesh, const char *name, bool is_ram, uint32_t sector,
                              uint32_t sectors)
{
    struct disk *disk = &mesh->disks[mesh->disk_count];
    const struct disk *set = disk_set(mesh, name);
    bool is_set = set < mesh->set + mesh->set_count;
    if (!is_set && !is_ram)
        return "the disk %s has no functions";
    *disk = is_set ? *set : (struct disk){.ops = ram_ops, .bytes = (uint64_t)sectors * sector};
    disk->is_ram = is_ram;
    if (sector == 0 || disk->bytes % sector != 0)
        return "the disk %s isn't of whole sectors";
    mesh->sizes[mesh->disk_count++] = (struct tzb_size){disk->bytes / sector, sector, 0};
    return NULL;
}

/* Finds disks and actors in lines, up to their end. What isn't a header the proved part refuses. */
static const char *scan(struct tzb_mesh *mesh, const char *line)
{
    char word[8] = "", name[MOST_NAME + 1] = "";
    const char *fault = NULL;
    for (; *line != '\0' && fault == NULL; line += strcspn(line, "\n"), line += *line == '\n') {
        unsigned sector, sectors = 0;
        mesh->fault_line++;
        if (*line == '\n' || *line == '#')
            continue;
        int count = sscanf(line, "%7s %16s %4u %6u", word, name, &sector, &sectors);
        bool is_ram = strcmp(word, "ram") == 0, is_disk = is_ram || strcmp(word, "disk") == 0;
        if (count >= 2 && strcmp(word, "actor") == 0 && mesh->actor_count < MOST_ACTORS)
            strcpy(mesh->actors[mesh->actor_count++], name);
        else if (count >= 3 && is_disk && mesh->disk_count < MOST_DISKS)
            fault = place_disk(mesh, name, is_ram, sector, sectors);
        else
            break;
    }
    snprintf(mesh->fault, sizeof mesh->fault, fault != NULL ? fault : "", name);
    return line;
}

/* Disks in memory get theirs, of zeros. */
static int32_t give_ram(struct tzb_mesh *mesh)
{
    for (struct disk *disk = mesh->disks; disk < mesh->disks + mesh->disk_count; disk++) {
        if (disk->ops.on_read != ram_read)
            continue;
        disk->arg = take(disk->bytes);
        if (disk->arg == NULL)
            return TZB_NO_MEMORY;
        memset(disk->arg, 0, disk->bytes);
    }
    return TZB_OK;
}

static void undo_open(struct tzb_mesh *mesh)
{
    tzb_core_close(&mesh->core);
    while (mesh->disk_count > 0)
        if (mesh->disks[--mesh->disk_count].ops.on_read == ram_read)
            memory.release(mesh->disks[mesh->disk_count].arg);
    mesh->actor_count = 0;
}

int32_t tzb_mesh_open(struct tzb_mesh *mesh, const char *header)
{
    int32_t code = TZB_WRONG;
    if (mesh->core.is_open)
        return TZB_OPEN;
    mesh->fault_line = 0;
    const char *end = scan(mesh, header);
    if (mesh->fault[0] == '\0')
        code = tzb_core_open(&mesh->core, TEXT(header), mesh->sizes, mesh->disk_count,
                             &mesh->fault_line);
    if (code == TZB_OK)
        code = give_ram(mesh);
    if (code == TZB_WRONG && mesh->fault[0] == '\0')
        strcpy(mesh->fault, mesh->fault_line != 0 ? "that isn't a line of a script, or not there"
                            : "a disk has no sectors or too many, or the text is too long");
    if (code == TZB_OK)
        tell_header(mesh, header, (size_t)(end - header));
    else
        undo_open(mesh);
    return code;
}

const char *tzb_mesh_fault(const struct tzb_mesh *mesh)
{
    return mesh->fault;
}

uint32_t tzb_mesh_fault_line(const struct tzb_mesh *mesh)
{
    return mesh->fault_line;
}

/* ---- Commands ---- */

static int32_t unlocked(struct tzb_mesh *mesh, int32_t code)
{
    mesh->unlock(mesh->lock_arg);
    return code;
}

/* Takes the lock for a command. NULL: memory was wanting. */
static struct request *begin(struct tzb_mesh *mesh, const char *actor, tzb_done *done, void *arg,
                             void *bytes)
{
    struct request *it = take(sizeof *it);
    if (it == NULL)
        return NULL;
    *it = (struct request){.done = done, .arg = arg, .bytes = bytes};
    mesh->lock(mesh->lock_arg);
    while (it->actor < mesh->actor_count && strcmp(mesh->actors[it->actor], actor) != 0)
        it->actor++;
    return it;
}

/* What a proved call says to a request. */
#define GIVE(it, call, ...) ((it) == NULL ? TZB_NO_MEMORY : call(&mesh->core, (it)->actor, \
    __VA_ARGS__, (uint64_t)(uintptr_t)(it), &(it)->error))

/* Tells the command, keeps its request while it waits, and lets the lock go. */
__attribute__((format(printf, 6, 7))) static int32_t end(
    struct tzb_mesh *mesh, struct request *it, int32_t code, const uint8_t *data, size_t len,
    const char *format, ...)
{
    if (it == NULL)
        return code;
    va_list words;
    va_start(words, format);
    tell_command(mesh, it, code, data, len, format, words);
    va_end(words);
    int32_t answer = code == TZB_REPLIED ? (int32_t)it->error : code;
    if (code == TZB_OK)
        insque(it, mesh->waiting.previous);
    else if (answer == TZB_OK && it->done != NULL)
        insque(it, mesh->ready.previous);
    else
        memory.release(it);
    return unlocked(mesh, answer);
}

int32_t tzb_mesh_open_handle(struct tzb_mesh *mesh, const char *actor, const char *handle,
                             const char *provider, uint32_t r, uint32_t w, uint32_t e)
{
    struct request *it = begin(mesh, actor, NULL, NULL, NULL);
    int32_t code = GIVE(it, tzb_core_open_handle, TEXT(handle), TEXT(provider), r, w, e);
    return end(mesh, it, code, NULL, 0, "open %s %s r%uw%ue%u", handle, provider, (unsigned)r,
               (unsigned)w, (unsigned)e);
}

int32_t tzb_mesh_close_handle(struct tzb_mesh *mesh, const char *actor, const char *handle)
{
    struct request *it = begin(mesh, actor, NULL, NULL, NULL);
    int32_t code = GIVE(it, tzb_core_close_handle, TEXT(handle));
    return end(mesh, it, code, NULL, 0, "close %s", handle);
}

int32_t tzb_mesh_insert(struct tzb_mesh *mesh, const char *actor, const char *disk)
{
    struct request *it = begin(mesh, actor, NULL, NULL, NULL);
    int32_t code = GIVE(it, tzb_core_insert, TEXT(disk));
    return end(mesh, it, code, NULL, 0, "insert %s", disk);
}

int32_t tzb_mesh_pull(struct tzb_mesh *mesh, const char *actor, const char *disk)
{
    struct request *it = begin(mesh, actor, NULL, NULL, NULL);
    int32_t code = GIVE(it, tzb_core_pull, TEXT(disk));
    return end(mesh, it, code, NULL, 0, "pull %s", disk);
}

int32_t tzb_mesh_flush(struct tzb_mesh *mesh, const char *actor, const char *handle,
                       tzb_done *done, void *arg)
{
    struct request *it = begin(mesh, actor, done, arg, NULL);
    int32_t code = GIVE(it, tzb_core_submit_flush, TEXT(handle));
    return end(mesh, it, code, NULL, 0, "flush %s", handle);
}

int32_t tzb_mesh_read(struct tzb_mesh *mesh, const char *actor, const char *handle, uint64_t offset,
                      void *bytes, size_t len, tzb_done *done, void *arg)
{
    struct request *it = begin(mesh, actor, done, arg, bytes);
    int32_t code = GIVE(it, tzb_core_submit_read, TEXT(handle), offset, len);
    return end(mesh, it, code, NULL, 0, "read %s %" PRIu64 " %zu", handle, offset, len);
}

int32_t tzb_mesh_write(struct tzb_mesh *mesh, const char *actor, const char *handle,
                       uint64_t offset, const void *bytes, size_t len, tzb_done *done, void *arg)
{
    struct request *it = begin(mesh, actor, done, arg, NULL);
    int32_t code = GIVE(it, tzb_core_submit_write, TEXT(handle), offset, bytes, len);
    return end(mesh, it, code, bytes, len, "write %s %" PRIu64, handle, offset);
}

int32_t tzb_mesh_delete(struct tzb_mesh *mesh, const char *actor, const char *handle,
                        uint64_t offset, uint64_t len, tzb_done *done, void *arg)
{
    struct request *it = begin(mesh, actor, done, arg, NULL);
    int32_t code = GIVE(it, tzb_core_submit_delete, TEXT(handle), offset, len);
    return end(mesh, it, code, NULL, 0, "delete %s %" PRIu64 " %" PRIu64, handle, offset, len);
}

/* Any command, as the one line of a script with the actors. */
static int32_t give_line(struct tzb_core *core, uint32_t actor, const struct tzb_mesh *mesh,
                         const char *command, uint64_t token, uint32_t *error)
{
    char script[(MOST_ACTORS + 1) * (MOST_NAME + 8) + MOST_LINE];
    int len = 0;
    if (actor == mesh->actor_count || strlen(command) > MOST_LINE)
        return !core->is_open ? TZB_CLOSED : actor == mesh->actor_count ? TZB_UNFIT : TZB_WRONG;
    for (uint32_t at = 0; at < mesh->actor_count; at++)
        len += sprintf(script + len, "actor %s\n", mesh->actors[at]);
    sprintf(script + len, "%s %s\n", mesh->actors[actor], command);
    return tzb_core_command(core, TEXT(script), token, error);
}

int32_t tzb_mesh_command(struct tzb_mesh *mesh, const char *actor, const char *command,
                         tzb_done *done, void *arg)
{
    struct request *it = begin(mesh, actor, done, arg, NULL);
    int32_t code = GIVE(it, give_line, mesh, command);
    return end(mesh, it, code, NULL, 0, "%s", command);
}

/* ---- Steps ---- */

static void free_turn(struct tzb_mesh *mesh, struct turn *turn)
{
    memory.release(mesh->spare);
    mesh->spare = turn;
}

/* What a disk says. */
static int32_t call_disk(const struct disk *disk, struct turn *turn)
{
    switch (turn->event.op) {
    case TZB_READ:
        return disk->ops.on_read(disk->arg, &turn->ask, turn->bytes, turn->len);
    case TZB_FLUSH:
        return disk->ops.on_flush != NULL ? disk->ops.on_flush(disk->arg, &turn->ask) : 0;
    case TZB_DELETE:
        if (disk->ops.on_delete != NULL)
            return disk->ops.on_delete(disk->arg, &turn->ask);
        memset(turn->bytes, 0, turn->len);
    }
    if (disk->ops.on_write == NULL)
        return TZB_EIO;
    return disk->ops.on_write(disk->arg, &turn->ask, turn->bytes, turn->len);
}

/* Gives the mesh a disk's answer. */
static int32_t answer(struct tzb_mesh *mesh, uint64_t bio, enum how how, uint32_t done,
                      const uint8_t *bytes, size_t len)
{
    int32_t code = how == BYTES  ? tzb_core_answer_bytes(&mesh->core, bio, bytes, len)
                   : how == DONE ? tzb_core_answer_done(&mesh->core, bio)
                                 : tzb_core_answer_failed(&mesh->core, bio, done);
    if (code == TZB_OK)
        tell_answer(mesh, bio, how, done, bytes, len);
    return code;
}

/* The same of what a function said, which is kept until there is memory. */
static int32_t deliver(struct tzb_mesh *mesh, struct turn *turn)
{
    enum how how = turn->said != 0 ? FAILED : turn->event.op == TZB_READ ? BYTES : DONE;
    int32_t code = answer(mesh, turn->event.bio, how, turn->ask.done, turn->bytes, turn->len);
    if (code == TZB_UNFIT && how == FAILED) /* so many sectors weren't asked for */
        code = answer(mesh, turn->event.bio, FAILED, 0, NULL, 0);
    if (code == TZB_NO_MEMORY) {
        turn->next = mesh->kept;
        mesh->kept = turn;
        return code;
    }
    free_turn(mesh, turn);
    return code == TZB_OK ? TZB_ASK : code;
}

/* Asks a disk, without the lock. */
static int32_t ask_disk(struct tzb_mesh *mesh, struct turn *turn)
{
    uint32_t sector = mesh->sizes[turn->event.disk].sector;
    turn->ask = (struct tzb_ask){.bio = turn->event.bio, .first = turn->event.first,
                                 .count = turn->event.count, .sector = sector};
    turn->len = (size_t)sector * turn->event.count;
    mesh->unlock(mesh->lock_arg);
    turn->said = call_disk(&mesh->disks[turn->event.disk], turn);
    mesh->lock(mesh->lock_arg);
    if (turn->said != TZB_LATER)
        return deliver(mesh, turn);
    free_turn(mesh, turn);
    return TZB_ASK;
}

/* Hands a reply to who waits for it, without the lock. */
static int32_t reply(struct tzb_mesh *mesh, struct request *it, struct turn *turn)
{
    size_t len = it->bytes == NULL ? turn->event.len : 0;
    remque(it);
    mesh->unlock(mesh->lock_arg);
    if (it->bytes != NULL)
        memcpy(it->bytes, turn->bytes, turn->event.len);
    if (it->done != NULL)
        it->done(it->arg, (int32_t)turn->event.error, len > 0 ? turn->bytes : NULL, len);
    memory.release(it);
    mesh->lock(mesh->lock_arg);
    free_turn(mesh, turn);
    return TZB_REPLY;
}

/* Makes the step that is due, with the lock taken. */
static int32_t make_step(struct tzb_mesh *mesh, struct turn *turn)
{
    struct tzb_step step = {0};
    if (mesh->listener != NULL)
        tzb_core_due(&mesh->core, &step);
    int32_t code = tzb_core_next(&mesh->core, &turn->event, turn->bytes, sizeof turn->bytes);
    struct request *waits = (struct request *)(uintptr_t)turn->event.token;
    if (code == TZB_OK)
        tell_step(mesh, &step);
    if (turn->event.kind == TZB_ASK)
        return ask_disk(mesh, turn);
    if (turn->event.kind == TZB_REPLY) {
        tell_reply(mesh, waits, turn->event.error, turn->bytes, turn->event.len);
        return reply(mesh, waits, turn);
    }
    code = code == TZB_OK ? (int32_t)turn->event.kind : code;
    free_turn(mesh, turn);
    return code;
}

/* Does what is due, with the lock taken. */
static int32_t take_turn(struct tzb_mesh *mesh)
{
    struct turn *turn = mesh->kept;
    if (turn != NULL) {
        mesh->kept = turn->next;
        return deliver(mesh, turn);
    }
    turn = mesh->spare != NULL ? mesh->spare : take(sizeof *turn);
    mesh->spare = NULL;
    if (turn == NULL)
        return TZB_NO_MEMORY;
    if (mesh->ready.next == &mesh->ready)
        return make_step(mesh, turn);
    turn->event = (struct tzb_event){.kind = TZB_REPLY};
    return reply(mesh, mesh->ready.next, turn);
}

int32_t tzb_mesh_step(struct tzb_mesh *mesh)
{
    mesh->lock(mesh->lock_arg);
    return unlocked(mesh, take_turn(mesh));
}

int32_t tzb_mesh_run(struct tzb_mesh *mesh)
{
    int32_t kind;
    do
        kind = tzb_mesh_step(mesh);
    while (kind > TZB_IDLE);
    return kind;
}

int32_t tzb_mesh_answer_read(struct tzb_mesh *mesh, uint64_t bio, const void *bytes, size_t len)
{
    mesh->lock(mesh->lock_arg);
    return unlocked(mesh, answer(mesh, bio, BYTES, 0, bytes, len));
}

int32_t tzb_mesh_answer_done(struct tzb_mesh *mesh, uint64_t bio)
{
    mesh->lock(mesh->lock_arg);
    return unlocked(mesh, answer(mesh, bio, DONE, 0, NULL, 0));
}

int32_t tzb_mesh_answer_failed(struct tzb_mesh *mesh, uint64_t bio, uint32_t done)
{
    mesh->lock(mesh->lock_arg);
    return unlocked(mesh, answer(mesh, bio, FAILED, done, NULL, 0));
}

/* ---- How it stands, and its end ---- */

int32_t tzb_mesh_list(struct tzb_mesh *mesh, char *text, size_t room, size_t *need)
{
    char none;
    char *to = room > 0 ? text : &none;
    uint64_t len;
    mesh->lock(mesh->lock_arg);
    int32_t code = tzb_core_list(&mesh->core, (uint8_t *)to, room > 0 ? room - 1 : 0, &len);
    if (code == TZB_OK)
        to[len] = '\0';
    *need = code == TZB_OK || code == TZB_ROOM ? (size_t)len + 1 : 0;
    return unlocked(mesh, code == TZB_OK && room == 0 ? TZB_ROOM : code);
}

uint64_t tzb_mesh_waiting(struct tzb_mesh *mesh)
{
    mesh->lock(mesh->lock_arg);
    uint64_t count = tzb_core_waiting(&mesh->core);
    mesh->unlock(mesh->lock_arg);
    return count;
}

uint64_t tzb_mesh_generation(struct tzb_mesh *mesh)
{
    mesh->lock(mesh->lock_arg);
    uint64_t count = tzb_core_generation(&mesh->core);
    mesh->unlock(mesh->lock_arg);
    return count;
}

static void tell_closed(struct request *ring)
{
    while (ring->next != ring) {
        struct request *it = ring->next;
        remque(it);
        if (it->done != NULL)
            it->done(it->arg, TZB_CLOSED, NULL, 0);
        memory.release(it);
    }
}

void tzb_mesh_close(struct tzb_mesh *mesh)
{
    if (mesh == NULL)
        return;
    undo_open(mesh);
    tell_closed(&mesh->waiting);
    tell_closed(&mesh->ready);
    while (mesh->kept != NULL) {
        struct turn *turn = mesh->kept;
        mesh->kept = turn->next;
        memory.release(turn);
    }
    memory.release(mesh->spare);
    memory.release(mesh);
}
