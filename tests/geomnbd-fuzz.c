/*
 * geomnbd-fuzz FOLDER FROM SEEDS MESSAGES PROGRAM WORD..
 *
 * Runs sessions of geomnbd by their numbers, each in a process of its own, until so many sessions or so many messages
 * are over. What a session has to write is computed first, by a server of NBD that is written here a second time; so
 * each byte is compared. Prints each difference, and at the end the next number, the sessions and the messages.
 */
#define _GNU_SOURCE
#include <errno.h>
#include <fcntl.h>
#include <poll.h>
#include <signal.h>
#include <stdint.h>
#include <stdio.h>
#include <stdlib.h>
#include <string.h>
#include <sys/socket.h>
#include <sys/wait.h>
#include <unistd.h>

enum {
    SIZE = 262144,
    EXPORTS = 2,
    PIECE = 32768,
    MOST_TRANSFER = 33554432,
    MOST_OPTION = 4352,
    PATIENCE_MS = 60000
};

/* The exports that the words of the program name, in this order; tests/geomnbd-fuzz has the script. */
static const struct export {
    const char *name;
    uint32_t sector;
} exports[EXPORTS] = {{"stripe/s", 512}, {"third", 4096}};

/* Bytes that grow. */
struct bytes {
    uint8_t *at;
    size_t count, room;
};

static uint64_t state;

static uint64_t drawn(void)
{
    state += 0x9e3779b97f4a7c15u;
    uint64_t z = state;
    z = (z ^ (z >> 30)) * 0xbf58476d1ce4e5b9u;
    z = (z ^ (z >> 27)) * 0x94d049bb133111ebu;
    return z ^ (z >> 31);
}

static uint64_t below(uint64_t n)
{
    return n ? drawn() % n : 0;
}

static uint8_t *room_for(struct bytes *b, size_t count)
{
    if (b->room < b->count + count) {
        b->room = 2 * (b->count + count);
        b->at = realloc(b->at, b->room);
        if (!b->at) {
            perror("geomnbd-fuzz");
            exit(2);
        }
    }
    b->count += count;
    return b->at + b->count - count;
}

static void add(struct bytes *b, const void *from, size_t count)
{
    if (count)
        memcpy(room_for(b, count), from, count);
}

static void put(struct bytes *b, int width, uint64_t number)
{
    uint8_t *to = room_for(b, (size_t)width);
    for (int k = width - 1; k >= 0; k--, number >>= 8)
        to[k] = (uint8_t)number;
}

static uint64_t number_at(const uint8_t *from, int width)
{
    uint64_t number = 0;
    for (int k = 0; k < width; k++)
        number = number << 8 | from[k];
    return number;
}

/* What a session has to write for what it reads: the server a second time. */
struct server {
    const uint8_t *in;
    size_t left;
    struct bytes *out;
    uint64_t messages;
    int no_zeroes, structured, chosen;
    uint8_t held[EXPORTS][SIZE];
};

/* The next bytes that are read; null where the client is gone. */
static const uint8_t *taken(struct server *s, size_t count)
{
    if (s->left < count)
        return NULL;
    s->in += count;
    s->left -= count;
    return s->in - count;
}

static void answer(struct server *s, uint32_t option, uint32_t kind, const void *data, size_t count)
{
    put(s->out, 8, 0x3e889045565a9u);
    put(s->out, 4, option);
    put(s->out, 4, kind);
    put(s->out, 4, count);
    add(s->out, data, count);
    s->messages++;
}

static int export_of(const uint8_t *name, size_t count)
{
    for (int k = 0; k < EXPORTS; k++)
        if (!count || (count == strlen(exports[k].name) && !memcmp(name, exports[k].name, count)))
            return k;
    return -1;
}

static void list(struct server *s, size_t count)
{
    for (int k = 0; k < EXPORTS && !count; k++) {
        struct bytes data = {0};
        put(&data, 4, strlen(exports[k].name));
        add(&data, exports[k].name, strlen(exports[k].name));
        answer(s, 3, 2, data.at, data.count);
        free(data.at);
    }
    answer(s, 3, count ? 0x80000003u : 1, NULL, 0);
}

/* INFO and GO: whether the export is known. */
static int describe(struct server *s, uint32_t option, const uint8_t *data, size_t count)
{
    uint64_t named = count < 4 ? 0 : number_at(data, 4);
    if (count < 6 || count < named + 6 || count != named + 6 + 2 * number_at(data + named + 4, 2)) {
        answer(s, option, 0x80000003u, NULL, 0);
        return 0;
    }
    int found = export_of(data + 4, named);
    if (found < 0) {
        answer(s, option, 0x80000006u, NULL, 0);
        return 0;
    }
    struct bytes told = {0};
    put(&told, 2, 0);
    put(&told, 8, SIZE);
    put(&told, 2, 109);
    put(&told, 2, 3);
    put(&told, 4, exports[found].sector);
    put(&told, 4, 4096);
    put(&told, 4, PIECE);
    answer(s, option, 3, told.at, 12);
    answer(s, option, 3, told.at + 12, 14);
    answer(s, option, 1, NULL, 0);
    free(told.at);
    s->chosen = found;
    return 1;
}

static int by_name(struct server *s, const uint8_t *data, size_t count)
{
    s->chosen = export_of(data, count);
    if (s->chosen < 0)
        return 0;
    put(s->out, 8, SIZE);
    put(s->out, 2, 109);
    if (!s->no_zeroes)
        memset(room_for(s->out, 124), 0, 124);
    s->messages++;
    return 1;
}

enum { GOES_ON, SERVES, ENDS };

static int option(struct server *s)
{
    const uint8_t *head = taken(s, 16);
    if (!head || memcmp(head, "IHAVEOPT", 8))
        return ENDS;
    uint32_t kind = (uint32_t)number_at(head + 8, 4), count = (uint32_t)number_at(head + 12, 4);
    const uint8_t *data = count > MOST_OPTION ? NULL : taken(s, count);
    if (!data)
        return ENDS;
    s->messages++;
    switch (kind) {
    case 1:
        return by_name(s, data, count) ? SERVES : ENDS;
    case 2:
        answer(s, 2, 1, NULL, 0);
        return ENDS;
    case 3:
        list(s, count);
        return GOES_ON;
    case 6:
    case 7:
        return describe(s, kind, data, count) && kind == 7 ? SERVES : GOES_ON;
    case 8:
        answer(s, 8, count ? 0x80000003u : 1, NULL, 0);
        s->structured |= !count;
        return GOES_ON;
    default:
        answer(s, kind, 0x80000001u, NULL, 0);
        return GOES_ON;
    }
}

static void reply(struct server *s, uint64_t cookie, uint32_t error, uint64_t offset, uint32_t count)
{
    const uint8_t *read = s->held[s->chosen] + offset;
    unsigned is_read = count && !error;
    s->messages++;
    if (!s->structured) {
        put(s->out, 4, 0x67446698u);
        put(s->out, 4, error);
        put(s->out, 8, cookie);
    } else {
        put(s->out, 4, 0x668e33efu);
        put(s->out, 2, 1);
        put(s->out, 2, error ? 0x8001u : is_read);
        put(s->out, 8, cookie);
        put(s->out, 4, error ? 6 : is_read ? 8 + count : 0);
        if (error)
            put(s->out, 6, (uint64_t)error << 16);
        else if (is_read)
            put(s->out, 8, offset);
    }
    if (is_read)
        add(s->out, read, count);
}

/* The error of a request by its head alone. */
static uint32_t judged(unsigned kind, unsigned flags, uint64_t offset, uint32_t count)
{
    if (kind > 6 || kind == 5 || !(flags < 2 || (flags < 4 && kind == 6)))
        return 22;
    if (kind == 3)
        return 0;
    if (!count || (kind < 2 && count > MOST_TRANSFER))
        return 22;
    if (count > SIZE || offset > SIZE - count)
        return kind ? 28 : 22;
    return 0;
}

/* Makes the commands of a request, up to the first that is refused. */
static uint32_t made(struct server *s, unsigned kind, uint64_t offset, uint32_t count, const uint8_t *data)
{
    uint32_t sector = exports[s->chosen].sector;
    for (uint32_t done = 0; done < count;) {
        uint32_t piece = count - done < PIECE ? count - done : PIECE;
        uint8_t *at = s->held[s->chosen] + offset + done;
        if ((offset + done) % sector || piece % sector)
            return 22;
        if (kind == 1)
            memcpy(at, data + done, piece);
        else if (kind)
            memset(at, 0, piece);
        done += piece;
    }
    return 0;
}

static int request(struct server *s)
{
    const uint8_t *head = taken(s, 28);
    if (!head || number_at(head, 4) != 0x25609513u)
        return ENDS;
    unsigned flags = (unsigned)number_at(head + 4, 2), kind = (unsigned)number_at(head + 6, 2);
    uint64_t cookie = number_at(head + 8, 8), offset = number_at(head + 16, 8);
    uint32_t count = (uint32_t)number_at(head + 24, 4);
    const uint8_t *data = NULL;
    if (kind == 1 && (count > MOST_TRANSFER || !(data = taken(s, count))))
        return ENDS;
    s->messages++;
    if (kind == 2)
        return ENDS;
    uint32_t error = judged(kind, flags, offset, count);
    if (!error && kind != 3)
        error = made(s, kind, offset, count, data);
    reply(s, cookie, error, error || kind ? 0 : offset, kind ? 0 : count);
    return GOES_ON;
}

/* What a session writes for these bytes, and how many messages these and those are. */
static uint64_t expected(const struct bytes *in, struct bytes *out)
{
    static struct server s;
    memset(&s, 0, sizeof s);
    s.in = in->at;
    s.left = in->count;
    s.out = out;
    s.messages = 1;
    add(out, "NBDMAGICIHAVEOPT\0\3", 18);
    const uint8_t *flags = taken(&s, 4);
    if (!flags || number_at(flags, 4) > 3)
        return s.messages;
    s.no_zeroes = number_at(flags, 4) >= 2;
    int next = GOES_ON;
    while (next == GOES_ON)
        next = option(&s);
    while (next != ENDS)
        next = request(&s);
    return s.messages;
}

/* Sessions that are drawn. */
static void draw_option(struct bytes *b, uint32_t kind, const void *data, size_t count)
{
    add(b, "IHAVEOPT", 8);
    put(b, 4, kind);
    put(b, 4, count);
    add(b, data, count);
}

static void draw_named(struct bytes *b, uint32_t kind)
{
    static const char *const names[] = {"stripe/s", "third", "", "left", "stripe/", "stripe/ss"};
    const char *name = names[below(kind == 7 ? 3 : 6)];
    struct bytes data = {0};
    uint64_t infos = below(4);
    put(&data, 4, strlen(name));
    add(&data, name, strlen(name));
    put(&data, 2, infos);
    for (uint64_t k = 0; k < infos; k++)
        put(&data, 2, below(5));
    draw_option(b, kind, data.at, data.count);
    free(data.at);
}

static void draw_handshake(struct bytes *b)
{
    put(b, 4, below(20) ? below(4) : drawn());
    for (uint64_t k = below(5); k > 0; k--) {
        static const uint32_t kinds[] = {3, 6, 8, 8, 4, 5, 9, 10, 99};
        uint32_t kind = kinds[below(9)];
        if (kind == 6)
            draw_named(b, 6);
        else
            draw_option(b, kind, "some data", below(8) ? 0 : below(10));
    }
    if (below(3)) {
        draw_named(b, 7);
        return;
    }
    const char *name = below(3) ? exports[below(EXPORTS)].name : "";
    draw_option(b, 1, name, strlen(name));
}

static void draw_request(struct bytes *b)
{
    static const unsigned kinds[] = {0, 0, 0, 0, 1, 1, 1, 3, 4, 6, 6};
    unsigned kind = below(100) ? kinds[below(11)] : (unsigned)below(9);
    uint64_t unit = below(20) ? (below(2) ? 512 : 4096) : 1;
    uint64_t offset = below(SIZE / unit) * unit;
    uint64_t most = below(12) ? 4096 / unit : below(10) ? 65536 / unit : SIZE / unit;
    uint64_t count = (1 + below(most ? most : 1)) * unit;
    if (below(30) && offset + count > SIZE)
        offset = SIZE - count;
    if (kind == 2 && below(20))
        kind = 0;
    put(b, 4, 0x25609513u);
    put(b, 2, below(6) ? 0 : below(40) ? below(3) : drawn());
    put(b, 2, kind);
    put(b, 8, drawn());
    put(b, 8, below(200) ? offset : drawn());
    put(b, 4, below(200) || kind == 1 ? count : drawn());
    if (kind != 1)
        return;
    uint8_t *data = room_for(b, count);
    uint64_t word = drawn();
    for (uint64_t k = 0; k < count; k++)
        data[k] = (uint8_t)(word >> (k & 56)) ^ (uint8_t)k;
}

/* Bytes are changed, left out, doubled or put in. */
static void mutate(struct bytes *b)
{
    for (uint64_t k = 1 + below(below(2) ? 2 : 20); k > 0 && b->count > 1; k--) {
        size_t at = below(4) ? below(b->count) : below(b->count < 200 ? b->count : 200);
        size_t some = 1 + below(b->count - at < 40 ? b->count - at : 40);
        switch (below(5)) {
        case 0:
            b->at[at] ^= (uint8_t)(1u << below(8));
            break;
        case 1:
            b->at[at] = (uint8_t)drawn();
            break;
        case 2:
            memmove(b->at + at, b->at + at + some, b->count - at - some);
            b->count -= some;
            break;
        case 3:
            room_for(b, some);
            memmove(b->at + at + some, b->at + at, b->count - at - some);
            break;
        default:
            memset(b->at + at, below(2) ? 0xff : 0, some);
        }
    }
}

static void draw_session(struct bytes *b)
{
    if (!below(50)) {
        for (uint64_t k = below(300); k > 0; k--)
            put(b, 1, drawn());
        return;
    }
    draw_handshake(b);
    for (uint64_t k = below(10) ? below(4000) : below(20); k > 0; k--)
        draw_request(b);
    if (below(2)) {
        put(b, 4, 0x25609513u);
        put(b, 4, 2);
        put(b, 8, drawn());
        put(b, 12, 0);
    }
    if (!below(3))
        mutate(b);
    if (!below(6))
        b->count = below(b->count);
}

/* A run of the server: its process, and both ends of its streams. */
struct run {
    pid_t process;
    int to, from;
};

static struct run started(char **words)
{
    int in[2], out[2];
    int kind = SOCK_STREAM | SOCK_CLOEXEC;
    if (socketpair(AF_UNIX, kind, 0, in) || socketpair(AF_UNIX, kind, 0, out)) {
        perror("geomnbd-fuzz");
        exit(2);
    }
    struct run r = {fork(), in[0], out[0]};
    if (r.process == 0) {
        dup2(in[1], 0);
        dup2(out[1], 1);
        execv(words[0], words);
        _exit(127);
    }
    close(in[1]);
    close(out[1]);
    fcntl(r.to, F_SETFL, O_NONBLOCK);
    fcntl(r.from, F_SETFL, O_NONBLOCK);
    return r;
}

/* What stands between: how much is passed on at once, whether now and then it waits, and after how many bytes from the
   server it is cut off. */
struct proxy {
    size_t most;
    int waits;
    size_t cut;
};

static struct proxy drawn_proxy(size_t written)
{
    static const size_t most[] = {1, 7, 100, 4096, 65536, 1 << 20};
    struct proxy p = {most[below(40) ? 3 + below(3) : below(3)], !below(20), SIZE_MAX};
    if (!below(8))
        p.cut = below(written + 1);
    return p;
}

static void rest(const struct proxy *p)
{
    if (p->waits && !below(100))
        usleep((useconds_t)below(3000));
}

/* Sends what is left, up to where the server takes no more. */
static void sends(struct run *r, const struct bytes *in, size_t *sent, const struct proxy *p)
{
    while (*sent < in->count) {
        size_t some = 1 + below(p->most);
        if (some > in->count - *sent)
            some = in->count - *sent;
        ssize_t took = send(r->to, in->at + *sent, some, MSG_NOSIGNAL);
        if (took < 0 && errno == EAGAIN)
            return;
        if (took < 0)
            break;
        *sent += (size_t)took;
        rest(p);
    }
    close(r->to);
    r->to = -1;
}

/* Takes what came; whether more may come. */
static int takes(struct run *r, struct bytes *got, const struct proxy *p)
{
    static uint8_t room[1 << 20];
    for (;;) {
        size_t some = 1 + below(p->most);
        ssize_t came = recv(r->from, room, some, 0);
        if (came < 0 && errno == EAGAIN)
            return 1;
        if (came <= 0)
            return 0;
        add(got, room, (size_t)came);
        rest(p);
        if (got->count >= p->cut)
            return 0;
    }
}

/* Passes on bytes both ways, until the server closes its end or is cut off. Whether it did so in time. */
static int passed(struct run *r, const struct bytes *in, struct bytes *got, const struct proxy *p)
{
    size_t sent = 0;
    for (;;) {
        struct pollfd ends[2] = {{r->from, POLLIN, 0}, {r->to, POLLOUT, 0}};
        if (poll(ends, r->to < 0 ? 1 : 2, PATIENCE_MS) <= 0)
            return 0;
        if (r->to >= 0 && ends[1].revents)
            sends(r, in, &sent, p);
        if (ends[0].revents && !takes(r, got, p))
            return 1;
    }
}

/* How the process ended: its status, 1000 and the signal, or -1 where it didn't end in time. */
static int ended(pid_t process)
{
    int status;
    for (int k = 0; k < PATIENCE_MS / 2; k++) {
        if (waitpid(process, &status, WNOHANG) == process)
            return WIFEXITED(status) ? WEXITSTATUS(status) : 1000 + WTERMSIG(status);
        usleep(k < 50 ? 50 : 2000);
    }
    return -1;
}

/* The first difference from what a session has to write, if there is one. */
static const char *difference(const struct bytes *due, const struct bytes *got, const struct proxy *p, int status)
{
    int is_cut = got->count >= p->cut;
    if (got->count > due->count)
        return "more was written than is due";
    if (memcmp(due->at, got->at, got->count))
        return "other bytes were written than are due";
    if (!is_cut && got->count < due->count)
        return "less was written than is due";
    if (status && !(is_cut && status == 4))
        return "another status";
    return NULL;
}

/* One session. Whether it went as it has to. */
static int session(char **words, uint64_t number, uint64_t *messages)
{
    struct bytes in = {0}, due = {0}, got = {0};
    state = number * 0x2545f4914f6cdd1du + 1;
    draw_session(&in);
    *messages += expected(&in, &due);
    struct proxy p = drawn_proxy(due.count);
    struct run r = started(words);
    const char *found = passed(&r, &in, &got, &p) ? NULL : "it hangs";
    if (r.to >= 0)
        close(r.to);
    close(r.from);
    if (found)
        kill(r.process, SIGKILL);
    int status = ended(r.process);
    if (!found)
        found = difference(&due, &got, &p, status);
    if (found)
        printf("session %llu: %s (%zu bytes read, %zu of %zu written, status %d)\n", (unsigned long long)number, found,
               in.count, got.count, due.count, status);
    fflush(stdout);
    free(in.at);
    free(due.at);
    free(got.at);
    return !found;
}

int main(int count, char **words)
{
    if (count < 6 || chdir(words[1])) {
        fprintf(stderr, "usage: geomnbd-fuzz FOLDER FROM SESSIONS MESSAGES PROGRAM WORD..\n");
        return 2;
    }
    uint64_t number = strtoull(words[2], NULL, 10), sessions = strtoull(words[3], NULL, 10);
    uint64_t most = strtoull(words[4], NULL, 10), messages = 0, failed = 0, made = 0;
    for (; made < sessions && messages < most && failed < 10; made++, number++)
        failed += !session(words + 5, number, &messages);
    printf("next %llu, %llu sessions, %llu messages, %llu failed\n", (unsigned long long)number,
           (unsigned long long)made, (unsigned long long)messages, (unsigned long long)failed);
    return failed ? 1 : 0;
}
