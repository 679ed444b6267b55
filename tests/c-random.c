/*
 * c-random SEED COUNT: calls the C library at random, well and badly, over disks that answer now, later or with a
 * failure, while memory is wanting now and then. It ends with status 1 if
 *
 * - a call that is refused changes the mesh as it is listed, or how many requests wait;
 * - a request that was accepted is replied to twice, or not at all, or one that wasn't is replied to;
 * - the listing changes and the generation doesn't, or a step changes this and isn't TZB_CHANGED;
 * - what was written isn't read.
 *
 * What touches memory that isn't the library's is found by the sanitizers with which this is built.
 */
#include <tazbrev.h>

#include <stdio.h>
#include <stdlib.h>
#include <string.h>

enum { MOST_OUT = 64, DISK = 64 * 512 };

#define CHECK(is_so) (is_so ? (void)0 : failed(#is_so, __LINE__))

struct out {
    bool waits;
    uint8_t bytes[TZB_MOST_BYTES];
};

struct later {
    struct tzb_ask ask;
    uint8_t *disk;
    bool reads;
};

static const char header[] = "disk d0 512\ndisk d1 512 later\nram r0 512 64\nram r1 4096 8\nactor a\nactor b\n";
static struct tzb_mesh *mesh;
static struct out out[MOST_OUT];
static struct later later[8];
static int later_count, waiting;
static bool is_locked;
static bool is_calm; /* memory is there, and disks answer now and well */
static uint64_t state;
static unsigned long counts[3]; /* of calls that were done, refused by the mesh, refused by the library */

static void failed(const char *what, int line)
{
    printf("line %d: not so: %s\n", line, what);
    exit(1);
}

static void lock(void *arg)
{
    CHECK(arg == &is_locked && !is_locked);
    is_locked = true;
}

static void unlock(void *arg)
{
    CHECK(arg == &is_locked && is_locked);
    is_locked = false;
}

static unsigned draw(unsigned below)
{
    state = state * 6364136223846793005u + 1442695040888963407u;
    return (unsigned)(state >> 33) % below;
}

static bool is_wanting(void)
{
    return !is_calm && draw(60) == 0;
}

static void *give(size_t size)
{
    return is_wanting() ? NULL : malloc(size);
}

static void *resize(void *at, size_t size)
{
    return is_wanting() ? NULL : realloc(at, size);
}

/* What a disk says: 0, TZB_LATER or a failure. */
static int32_t mood(struct tzb_ask *ask, uint8_t *disk, bool reads)
{
    CHECK(!is_locked);
    if (is_calm || draw(3) != 0)
        return 0;
    if (draw(4) == 0 || later_count == 8) {
        ask->done = reads ? 0 : draw(ask->count + 2);
        return TZB_EIO;
    }
    later[later_count++] = (struct later){*ask, disk, reads};
    return TZB_LATER;
}

static int32_t on_read(void *arg, struct tzb_ask *ask, uint8_t *bytes, size_t len)
{
    int32_t said = mood(ask, arg, true);
    if (said == 0)
        memcpy(bytes, (uint8_t *)arg + ask->first * ask->sector, len);
    return said;
}

static int32_t on_write(void *arg, struct tzb_ask *ask, const uint8_t *bytes, size_t len)
{
    memcpy((uint8_t *)arg + ask->first * ask->sector, bytes, len);
    return mood(ask, arg, false);
}

static int32_t on_flush(void *arg, struct tzb_ask *ask)
{
    return mood(ask, arg, false);
}

static void done(void *arg, int32_t error, const uint8_t *bytes, size_t len)
{
    struct out *it = arg;
    CHECK(it->waits && !is_locked);
    CHECK((bytes == NULL) == (len == 0));
    CHECK(error == TZB_CLOSED || (error >= 0 && error <= TZB_EDEEP));
    it->waits = false;
    waiting--;
}

static char *listed(void)
{
    size_t need;
    bool was_calm = is_calm;
    is_calm = true;
    CHECK(tzb_mesh_list(mesh, NULL, 0, &need) == TZB_ROOM);
    char *text = malloc(need);
    CHECK(tzb_mesh_list(mesh, text, need - 1, &need) == TZB_ROOM);
    CHECK(tzb_mesh_list(mesh, text, need, &need) == 0 && strlen(text) + 1 == need);
    is_calm = was_calm;
    return text;
}

static const char *name(void)
{
    static const char *const names[] = {"d0", "d1", "r0", "r1", "stripe/s", "concat/c", "d0.nop", "d0s1", "label/x",
                                        "no", "", "two words", "a-name-that-is-too-long-for-a-handle-or-a-disk"};
    return names[draw(draw(4) == 0 ? 13 : 4)];
}

static const char *handle(void)
{
    static const char *const names[] = {"h", "i", "j", "k", "", "name-of-17-letter"};
    return names[draw(draw(8) == 0 ? 6 : 2)];
}

static const char *actor(void)
{
    return draw(30) == 0 ? "c" : draw(2) == 0 ? "a" : "b";
}

static int32_t command(struct out *it)
{
    static const char *const texts[] = {
        "nop d0 0 4096 3", "stripe s 4096 d0 r0", "concat c d0 d1", "append c r0", "destroy nop d0.nop",
        "destroy stripe s", "destroy concat c", "label h x", "relabel h x", "mark h concat c 1 0 1", "read h 0 512",
        "write h 0 11*512", "flush h", "mesh", "sync", "settle", "open h d0 r1w1e0", "close h", "", "nop", "frob h",
        "nop d0 0 4096 3\na nop d1 0 4096 3", "read h 00 512"};
    return tzb_mesh_command(mesh, actor(), texts[draw(sizeof texts / sizeof *texts)], done, it);
}

static int32_t request(struct out *it)
{
    uint64_t offset = draw(40) == 0 ? UINT64_MAX - draw(4096) : 512u * draw(66) + (draw(20) == 0);
    size_t len = 512u * (draw(10) == 0 ? draw(66) : 1 + draw(3));
    switch (draw(4)) {
    case 0:
        return tzb_mesh_read(mesh, actor(), handle(), offset, draw(4) == 0 ? NULL : it->bytes, len, done, it);
    case 1:
        return tzb_mesh_write(mesh, actor(), handle(), offset, it->bytes, len, done, it);
    case 2:
        return tzb_mesh_delete(mesh, actor(), handle(), offset, len, done, it);
    default:
        return tzb_mesh_flush(mesh, actor(), handle(), done, it);
    }
}

/* A later answer, well or not one to what was asked. */
static int32_t answer(void)
{
    if (later_count == 0)
        return tzb_mesh_answer_done(mesh, draw(100000));
    struct later it = later[draw((unsigned)later_count)];
    size_t len = (size_t)it.ask.count * it.ask.sector;
    int32_t code;
    switch (draw(6)) {
    case 0:
        code = tzb_mesh_answer_failed(mesh, it.ask.bio, draw(it.ask.count + 2));
        break;
    case 1:
        code = tzb_mesh_answer_read(mesh, it.ask.bio, it.disk, 511);
        break;
    default:
        code = it.reads ? tzb_mesh_answer_read(mesh, it.ask.bio, it.disk + it.ask.first * it.ask.sector, len)
                        : tzb_mesh_answer_done(mesh, it.ask.bio);
    }
    if (code == 0)
        for (int i = 0; i < later_count; i++)
            if (later[i].ask.bio == it.ask.bio)
                later[i--] = later[--later_count];
    return code;
}

/* A call, and whether a reply comes if it is accepted. */
static int32_t call(struct out *it, bool *has_reply)
{
    unsigned which = draw(20);
    *has_reply = which == 4 || which > 5;
    switch (which) {
    case 0:
    case 3:
        return tzb_mesh_open_handle(mesh, actor(), handle(), name(), draw(3), draw(3), draw(draw(9) == 0 ? 11 : 2));
    case 1:
        if (draw(3) != 0)
            return tzb_mesh_open_handle(mesh, actor(), handle(), name(), 2, 2, 0);
        return tzb_mesh_close_handle(mesh, actor(), handle());
    case 2:
        return draw(4) != 0 ? tzb_mesh_insert(mesh, actor(), name()) : tzb_mesh_pull(mesh, actor(), name());
    case 4:
        return command(it);
    case 5:
        return answer();
    default:
        return request(it);
    }
}

static void go_on(unsigned most)
{
    char *before = listed();
    uint64_t first = tzb_mesh_generation(mesh);
    int32_t kind = TZB_MOVED;
    for (unsigned i = 0; i < most && kind != TZB_IDLE; i++) {
        uint64_t generation = tzb_mesh_generation(mesh);
        kind = tzb_mesh_step(mesh);
        CHECK(kind >= 0 || kind == TZB_NO_MEMORY);
        CHECK(tzb_mesh_generation(mesh) == generation + (kind == TZB_CHANGED));
    }
    char *after = listed();
    CHECK(tzb_mesh_generation(mesh) != first || strcmp(before, after) == 0);
    free(before);
    free(after);
}

/* One call, and whether it changed nothing if it was refused. */
static void one(void)
{
    struct out *it = &out[draw(MOST_OUT)];
    if (it->waits)
        return;
    char *before = listed();
    uint64_t waited = tzb_mesh_waiting(mesh), generation = tzb_mesh_generation(mesh);
    bool has_reply;
    int32_t code = call(it, &has_reply);
    char *after = listed();
    counts[code == 0 ? 0 : code > 0 ? 1 : 2]++;
    CHECK(strcmp(before, after) == 0 || (code == 0 && tzb_mesh_generation(mesh) != generation));
    CHECK(code == 0 || tzb_mesh_waiting(mesh) == waited);
    free(after);
    it->waits = has_reply && code == 0;
    waiting += it->waits;
    free(before);
}

static void end(void)
{
    is_calm = true;
    while (later_count > 0 && tzb_mesh_run(mesh) == 0)
        answer();
    CHECK(tzb_mesh_run(mesh) == 0);
    while (later_count > 0)
        answer(), tzb_mesh_run(mesh);
    CHECK(waiting == 0 && tzb_mesh_waiting(mesh) == 0);
}

/* Whether these bytes are read from an offset on. */
static bool reads(uint64_t offset, const uint8_t *bytes, size_t len)
{
    static uint8_t back[TZB_MOST_BYTES];
    memset(back, 0xa5, sizeof back);
    CHECK(tzb_mesh_read(mesh, "a", "h", offset, back, len, NULL, NULL) == 0 && tzb_mesh_run(mesh) == 0);
    return memcmp(bytes, back, len) == 0;
}

/* A new disk has zeros; what is written is read; what is deleted reads as zeros, and nothing beside it. */
static void read_back(void)
{
    static uint8_t written[TZB_MOST_BYTES], zeros[TZB_MOST_BYTES];
    mesh = tzb_mesh_create();
    CHECK(tzb_mesh_open(mesh, "ram r0 512 64\nram r1 512 64\nactor a\n") == 0 && tzb_mesh_run(mesh) == 0);
    CHECK(tzb_mesh_command(mesh, "a", "stripe s 1024 r0 r1", NULL, NULL) == 0 && tzb_mesh_run(mesh) == 0);
    CHECK(tzb_mesh_open_handle(mesh, "a", "h", "stripe/s", 1, 1, 1) == 0);
    for (unsigned i = 0; i < sizeof written; i++)
        written[i] = (uint8_t)draw(256);
    CHECK(reads(0, zeros, sizeof zeros) && reads(sizeof zeros, zeros, sizeof zeros));
    CHECK(tzb_mesh_write(mesh, "a", "h", 512, written, sizeof written, NULL, NULL) == 0 && tzb_mesh_run(mesh) == 0);
    CHECK(reads(512, written, sizeof written) && reads(0, zeros, 512));
    CHECK(tzb_mesh_delete(mesh, "a", "h", 1024, 4096, NULL, NULL) == 0 && tzb_mesh_run(mesh) == 0);
    CHECK(reads(1024, zeros, 4096) && reads(512, written, 512) && reads(5120, written + 4608, 8192));
    CHECK(tzb_mesh_read(mesh, "a", "h", 0, zeros, 512, NULL, NULL) == 0);
    tzb_mesh_close(mesh);
}

/* The life of a mesh of so many calls; some of its requests wait when it is closed. */
static void life(long calls)
{
    static const struct tzb_disk_ops ops = {sizeof ops, on_read, on_write, NULL, on_flush};
    static uint8_t disks[2][DISK];
    is_calm = true;
    mesh = tzb_mesh_create();
    CHECK(tzb_set_alloc(give, resize, free) == TZB_OPEN);
    CHECK(tzb_mesh_step(mesh) == TZB_CLOSED && tzb_mesh_waiting(mesh) == 0 && tzb_mesh_generation(mesh) == 0);
    CHECK(tzb_mesh_set_disk(mesh, "d0", &ops, disks[0], DISK) == 0);
    CHECK(tzb_mesh_set_disk(mesh, "d1", &ops, disks[1], DISK) == 0);
    CHECK(tzb_mesh_set_lock(mesh, lock, unlock, &is_locked) == 0);
    CHECK(tzb_mesh_open(mesh, header) == 0 && tzb_mesh_run(mesh) == 0);
    CHECK(tzb_mesh_open(mesh, header) == TZB_OPEN);
    CHECK(tzb_mesh_open_handle(mesh, "a", "h", "d0", 1, 1, 0) == 0);
    CHECK(tzb_mesh_open_handle(mesh, "b", "h", "r0", 1, 1, 0) == 0);
    is_calm = false;
    for (long i = 0; i < calls; i++) {
        one();
        go_on(draw(6));
        if (draw(200) == 0)
            end(), is_calm = false;
    }
    end();
    is_calm = false;
    for (int i = 0; i < 30; i++)
        one();
    tzb_mesh_close(mesh);
    CHECK(waiting == 0);
    later_count = 0;
    memset(disks, 0, sizeof disks);
}

int main(int count, char **words)
{
    CHECK(count == 3);
    state = strtoull(words[1], NULL, 10);
    CHECK(tzb_set_alloc(give, resize, free) == 0);
    for (long left = strtol(words[2], NULL, 10); left > 0; left -= 400)
        life(left < 400 ? left : 400);
    is_calm = true;
    read_back();
    printf("%lu done, %lu refused by the mesh, %lu by the library\n", counts[0], counts[1], counts[2]);
    return 0;
}
