/*
 * threaded_disks SEED COMMANDS [FAULT]: a driver with threads, whose trace `geomrun verify` judges.
 *
 *     cc -O2 -pthread -o threaded_disks examples/threaded_disks.c
 *     ./threaded_disks 1 80 > my.trace && release/geomrun verify < my.trace
 *
 * Three actors send requests to two disks of this program's own, which are the driver under test (`disk_answer`). Each
 * actor has a thread, each disk has one, and three more do what the mesh does: events and tastes, the way down, the way
 * up. All that they share stands under one lock, and each step is written to the trace where it is made. A disk may
 * fail a write; that is legal, as long as it says so.
 *
 * FAULT makes the driver wrong, each by a fault that drivers have: `stale-read`, `lost-write`, `wrong-offset`,
 * `lost-completion`, `short-read`, `completed-twice`, `hidden-failure`, `other-seat`, `two-at-a-disk`, `deaf-taste`.
 */
#define _POSIX_C_SOURCE 200809L
#include "geotrace.h"

#include <pthread.h>
#include <stdarg.h>
#include <stdbool.h>
#include <stdlib.h>
#include <string.h>
#include <time.h>

enum { ACTORS = 3, DISKS = 2, SECTOR = 512, SECTORS = 64, MOST_COMMANDS = 1000, MOST_REQUESTS = 8000 };
enum kind { READ, WRITE, FLUSH, OPEN, SYNC, CLOSE };
enum phase { DOWN, SENT, BUSY, BACK, ANSWERED };

/* A command of an actor: the line of the script that it stands in, and what it asks for, in sectors. */
struct command {
    int line, actor;
    enum kind kind;
    int first, count;
    unsigned char byte;
    char answer[3000]; /* what the report says behind the number of the line */
};

/* A request: of a command, or of a taste (then `command` is NULL). */
struct request {
    enum kind kind;
    int disk, first, count;
    enum phase phase;
    struct command *command;
    unsigned char *bytes;
    bool failed;
};

struct disk {
    unsigned char held[SECTORS * SECTOR];
    int readers, writers;
};

/* The taste under way. Five classes are asked in turn; all but the second read a sector, and decline it. */
struct taste {
    int disk;            /* -1: none */
    int next_class;      /* 0 to 4; 5: no class is left */
    struct request *out; /* the read of the class that was asked, or NULL */
    bool writer_came;
};

struct event {
    bool is_offer; /* or that a writer came, where nobody has to go */
    int disk;
};

static pthread_mutex_t lock = PTHREAD_MUTEX_INITIALIZER;
static pthread_cond_t changed = PTHREAD_COND_INITIALIZER;
static bool stopped;

static struct geotrace trace;
static struct disk disks[DISKS];
static struct command commands[MOST_COMMANDS];
static int command_count, next_command[ACTORS];
static struct request requests[MOST_REQUESTS + 1]; /* from 1 on */
static int request_count;
static struct event events[MOST_COMMANDS];
static int events_done, events_posted;
static struct taste taste = { -1, 0, NULL, false };
static bool first_disk_was_opened;
static const char *fault = "";
static int served[FLUSH + 1]; /* how many requests of each kind the disks were asked */

/* Who makes which steps. */
static int seat_of_actor(int actor) { return 1 + actor; }
enum { EVENT_SEAT = ACTORS + 1, DOWN_SEAT, UP_SEAT, FIRST_DISK_SEAT };

static bool is_fault(const char *name) { return strcmp(fault, name) == 0; }

/* Tells the other threads what was done, and lets them have the lock, sometimes for a while. */
static void pause_between_steps(void)
{
    struct timespec while_long = { 0, rand() % 200000 };

    pthread_cond_broadcast(&changed);
    pthread_mutex_unlock(&lock);
    if (rand() % 3 == 0)
        nanosleep(&while_long, NULL);
    pthread_mutex_lock(&lock);
}

static int number_of(const struct request *request) { return (int)(request - requests); }

static struct request *make_request(enum kind kind, int disk, int first, int count, struct command *command)
{
    struct request *made = &requests[++request_count];

    *made = (struct request){ kind, disk, first, count, DOWN, command, calloc((size_t)count + 1, SECTOR), false };
    return made;
}

static struct request *first_in(enum phase phase)
{
    for (int at = 1; at <= request_count; at++)
        if (requests[at].phase == phase)
            return &requests[at];
    return NULL;
}

static bool has_request_out(int actor)
{
    for (int at = 1; at <= request_count; at++)
        if (requests[at].command && requests[at].command->actor == actor && requests[at].phase != ANSWERED)
            return true;
    return false;
}

static void post(bool is_offer, int disk) { events[events_posted++] = (struct event){ is_offer, disk }; }

/* The first writer of the first disk comes in the middle of its taste, which waits for it; so each run has that case. */
static bool is_time_for_writer(void) { return taste.disk == 0 && taste.next_class == 2; }

static bool waits_for_taste(const struct command *command)
{
    return command->kind == OPEN && command->actor % DISKS == 0 && !first_disk_was_opened && !is_time_for_writer();
}

static bool waits_for_writer(void) { return is_time_for_writer() && !first_disk_was_opened; }

/* The actors */

static struct command *next_of(int actor)
{
    int at = next_command[actor];

    while (at < command_count && commands[at].actor != actor)
        at++;
    next_command[actor] = at;
    return at < command_count ? &commands[at] : NULL;
}

static void answer(struct command *command, const char *text) { strcpy(command->answer, text); }

/* The first writer that comes to a provider ends a taste of it, and is told to those that stand on it. */
static void open_disk(struct disk *disk, int number)
{
    first_disk_was_opened = first_disk_was_opened || number == 0;
    disk->readers++;
    if (disk->writers++ == 0) {
        post(false, number);
        if (taste.disk == number && !is_fault("deaf-taste"))
            taste.writer_came = true;
    }
}

/* The last writer that goes has the provider offered for taste again. */
static void close_disk(struct disk *disk, int number)
{
    disk->readers--;
    if (--disk->writers == 0)
        post(true, number);
}

static void do_command(struct command *command)
{
    int number = command->actor % DISKS;
    struct request *made;

    switch (command->kind) {
    case OPEN:
        open_disk(&disks[number], number);
        answer(command, "ok");
        break;
    case CLOSE:
        close_disk(&disks[number], number);
        answer(command, "ok");
        break;
    case SYNC:
        answer(command, "ok");
        break;
    default:
        made = make_request(command->kind, number, command->first, command->count, command);
        memset(made->bytes, command->kind == WRITE ? command->byte : 0, (size_t)command->count * SECTOR);
    }
}

static void *run_actor(void *given)
{
    int actor = *(int *)given;
    struct command *command;

    pthread_mutex_lock(&lock);
    while (!stopped && (command = next_of(actor)) != NULL) {
        if (waits_for_taste(command) || (command->kind == SYNC && has_request_out(actor))) {
            pthread_cond_wait(&changed, &lock);
            continue;
        }
        geotrace_go(&trace, seat_of_actor(actor), actor);
        next_command[actor]++;
        do_command(command);
        pause_between_steps();
    }
    pthread_mutex_unlock(&lock);
    return NULL;
}

/* Events and tastes */

/* One step of the taste. It ends by just one where a writer came, whatever was to come. */
static void judge(void)
{
    geotrace_judge(&trace, EVENT_SEAT);
    if (taste.writer_came || (taste.out == NULL && taste.next_class == 5))
        taste = (struct taste){ -1, 0, NULL, false };
    else if (taste.out != NULL) {
        taste.out = NULL; /* the class has declined what it read */
        taste.next_class++;
    } else if (taste.next_class == 1)
        taste.next_class++; /* a class that reads nothing here */
    else
        taste.out = make_request(READ, taste.disk, taste.next_class == 0 ? 0 : SECTORS - 1, 1, NULL);
}

static void do_event(void)
{
    struct event event = events[events_done++];

    geotrace_event(&trace, EVENT_SEAT);
    if (event.is_offer && disks[event.disk].writers == 0)
        taste = (struct taste){ event.disk, 0, NULL, false };
}

static void *run_events(void *unused)
{
    (void)unused;
    pthread_mutex_lock(&lock);
    while (!stopped) {
        if (taste.disk >= 0 && !waits_for_writer() && (taste.out == NULL || taste.out->phase == ANSWERED))
            judge();
        else if (taste.disk < 0 && events_done < events_posted)
            do_event();
        else {
            pthread_cond_wait(&changed, &lock);
            continue;
        }
        pause_between_steps();
    }
    pthread_mutex_unlock(&lock);
    return NULL;
}

/* The way down, and the way up */

static void *run_down(void *unused)
{
    struct request *found;

    (void)unused;
    pthread_mutex_lock(&lock);
    while (!stopped) {
        if ((found = first_in(DOWN)) == NULL) {
            pthread_cond_wait(&changed, &lock);
            continue;
        }
        geotrace_start(&trace, DOWN_SEAT, number_of(found));
        found->phase = SENT;
        pause_between_steps();
    }
    pthread_mutex_unlock(&lock);
    return NULL;
}

/* What the report says of a request that came back. */
static void reply(struct request *request)
{
    char *end = request->command->answer;
    size_t size = (size_t)request->count * SECTOR;
    FILE *text;

    strcpy(end, request->failed && !is_fault("hidden-failure") ? "EIO" : "ok");
    if (request->kind != READ || request->failed)
        return;
    text = fmemopen(end + 2, sizeof request->command->answer - 2, "w");
    fputc(' ', text);
    geotrace_runs(text, request->bytes, size);
    fclose(text);
}

static void *run_up(void *unused)
{
    struct request *found;

    (void)unused;
    pthread_mutex_lock(&lock);
    while (!stopped) {
        if ((found = first_in(BACK)) == NULL) {
            pthread_cond_wait(&changed, &lock);
            continue;
        }
        geotrace_up(&trace, UP_SEAT, number_of(found));
        found->phase = ANSWERED;
        if (found->command)
            reply(found);
        pause_between_steps();
    }
    pthread_mutex_unlock(&lock);
    return NULL;
}

/* The disks */

/* Whether something odd happens to the next request of a kind: to each seventh one. */
static bool strikes_at(enum kind kind) { return ++served[kind] % 7 == 0; }

/* The driver under test: it reads or writes the sectors of a request, or fails. */
static void disk_answer(struct disk *disk, struct request *request, bool strikes)
{
    size_t at = (size_t)request->first * SECTOR, size = (size_t)request->count * SECTOR;

    if (strikes && is_fault("wrong-offset") && at >= SECTOR)
        at -= SECTOR;
    if (request->kind == WRITE && strikes && (is_fault("") || is_fault("hidden-failure")))
        request->failed = true;
    else if (request->kind == WRITE && !(strikes && is_fault("lost-write")))
        memcpy(disk->held + at, request->bytes, size);
    else if (request->kind == READ)
        memcpy(request->bytes, disk->held + at, size);
    if (request->kind == READ && strikes && is_fault("stale-read"))
        memset(request->bytes, 0, SECTOR);
}

/* Writes the answer of the disk to the trace. */
static void deliver(struct request *request, int seat, bool strikes)
{
    int number = number_of(request), count = request->count;

    if (strikes && is_fault("other-seat"))
        seat += DISKS;
    if (request->failed)
        geotrace_deliver_failed(&trace, seat, number, 0);
    else if (request->kind == READ)
        geotrace_deliver_bytes(&trace, seat, number, request->bytes,
                               (size_t)count * SECTOR - (strikes && is_fault("short-read") ? 1 : 0));
    else
        geotrace_deliver_done(&trace, seat, number);
    if (strikes && is_fault("completed-twice"))
        geotrace_deliver_done(&trace, seat, number);
}

/* Any request that is out to the disk: a driver may choose. */
static struct request *choose(int disk)
{
    struct request *found[MOST_REQUESTS];
    int count = 0;

    for (int at = 1; at <= request_count; at++)
        if (requests[at].disk == disk && requests[at].phase == SENT)
            found[count++] = &requests[at];
    return count ? found[rand() % count] : NULL;
}

static void *run_disk(void *given)
{
    int number = *(int *)given % DISKS, seat = FIRST_DISK_SEAT + *(int *)given;
    struct request *request;
    bool strikes;

    pthread_mutex_lock(&lock);
    while (!stopped) {
        if ((request = choose(number)) == NULL) {
            pthread_cond_wait(&changed, &lock);
            continue;
        }
        geotrace_take(&trace, seat, number, number_of(request));
        request->phase = BUSY;
        strikes = strikes_at(request->kind);
        pause_between_steps();
        disk_answer(&disks[number], request, strikes);
        if (strikes && is_fault("lost-completion"))
            continue;
        deliver(request, seat, strikes);
        request->phase = BACK;
        pause_between_steps();
    }
    pthread_mutex_unlock(&lock);
    return NULL;
}

/* The script, and the report */

static FILE *script;
static int lines;

static void header(const char *format, ...)
{
    va_list values;

    va_start(values, format);
    vfprintf(script, format, values);
    va_end(values);
    lines++;
}

static void add_command(int actor, enum kind kind, int first, int count, int byte)
{
    struct command *made = &commands[command_count++];

    lines++;
    *made = (struct command){ lines, actor, kind, first, count, (unsigned char)byte, "" };
    fprintf(script, "a%d ", actor);
    switch (kind) {
    case OPEN: fprintf(script, "open h md%d r1w1e0\n", actor % DISKS); break;
    case READ: fprintf(script, "read h %d %d\n", first * SECTOR, count * SECTOR); break;
    case WRITE: fprintf(script, "write h %d %02x*%d\n", first * SECTOR, byte, count * SECTOR); break;
    case FLUSH: fprintf(script, "flush h\n"); break;
    case SYNC: fprintf(script, "sync\n"); break;
    case CLOSE: fprintf(script, "close h\n"); break;
    }
}

/* A command that is drawn. The first sector and the last stay zeros, so that no class finds anything there. */
static void draw_command(void)
{
    int actor = rand() % ACTORS, first = 1 + rand() % (SECTORS - 6), count = 1 + rand() % 4;

    switch (rand() % 6) {
    case 0: case 1: add_command(actor, READ, first, count, 0); break;
    case 2: case 3: add_command(actor, WRITE, first, count, 1 + rand() % 255); break;
    case 4: add_command(actor, SYNC, 0, 0, 0); break;
    default: add_command(actor, FLUSH, 0, 0, 0);
    }
}

static void draw_script(int count)
{
    for (int disk = 0; disk < DISKS; disk++)
        header("ram md%d %d %d\n", disk, SECTOR, SECTORS);
    for (int actor = 0; actor < ACTORS; actor++)
        header("actor a%d\n", actor);
    for (int actor = 0; actor < ACTORS; actor++)
        add_command(actor, OPEN, 0, 0, 0);
    for (int at = 0; at < count; at++)
        draw_command();
    for (int actor = 0; actor < ACTORS; actor++) {
        add_command(actor, SYNC, 0, 0, 0);
        add_command(actor, CLOSE, 0, 0, 0);
    }
}

static void write_report(void)
{
    char *text;
    size_t size;
    FILE *report = open_memstream(&text, &size);

    for (int at = 0; at < command_count; at++)
        if (commands[at].answer[0])
            fprintf(report, "%d %s\n", commands[at].line, commands[at].answer);
    for (int disk = 0; disk < DISKS; disk++)
        fprintf(report, "geom DISK md%d rank 1\n  provider md%d size %d sector %d r%dw%de0\n", disk, disk,
                SECTORS * SECTOR, SECTOR, disks[disk].readers, disks[disk].writers);
    fclose(report);
    geotrace_report(&trace, text);
    free(text);
}

/* Whether nothing is left to do. */
static bool is_at_rest(void)
{
    for (int actor = 0; actor < ACTORS; actor++)
        if (next_of(actor) != NULL || has_request_out(actor))
            return false;
    return events_done == events_posted && taste.disk < 0;
}

/* Waits until nothing is left to do, or for two seconds: a driver that loses a completion never comes to rest. */
static void wait_for_rest(void)
{
    struct timespec millisecond = { 0, 1000000 };
    bool rests = false;

    for (int turn = 0; turn < 2000 && !rests; turn++) {
        nanosleep(&millisecond, NULL);
        pthread_mutex_lock(&lock);
        rests = is_at_rest();
        pthread_mutex_unlock(&lock);
    }
    pthread_mutex_lock(&lock);
    stopped = true;
    pthread_cond_broadcast(&changed);
    pthread_mutex_unlock(&lock);
}

static void run_all(void)
{
    static int numbers[2 * DISKS] = { 0, 1, 2, 3 };
    pthread_t threads[ACTORS + 3 + 2 * DISKS];
    int count = 0, workers = is_fault("two-at-a-disk") ? 2 * DISKS : DISKS;

    for (int actor = 0; actor < ACTORS; actor++)
        pthread_create(&threads[count++], NULL, run_actor, &numbers[actor]);
    pthread_create(&threads[count++], NULL, run_events, NULL);
    pthread_create(&threads[count++], NULL, run_down, NULL);
    pthread_create(&threads[count++], NULL, run_up, NULL);
    for (int worker = 0; worker < workers; worker++)
        pthread_create(&threads[count++], NULL, run_disk, &numbers[worker]);
    wait_for_rest();
    for (int at = 0; at < count; at++)
        pthread_join(threads[at], NULL);
}

int main(int count, char **words)
{
    char *text;
    size_t size;

    if (count < 3 || count > 4 || atoi(words[2]) < 0 || atoi(words[2]) > MOST_COMMANDS - 10) {
        fprintf(stderr, "usage: threaded_disks SEED COMMANDS [FAULT]; at most %d commands\n", MOST_COMMANDS - 10);
        return 2;
    }
    srand((unsigned)atoi(words[1]));
    fault = count == 4 ? words[3] : "";
    trace.out = stdout;
    script = open_memstream(&text, &size);
    draw_script(atoi(words[2]));
    fclose(script);
    geotrace_script(&trace, text);
    free(text);
    for (int disk = 0; disk < DISKS; disk++)
        post(true, disk);
    run_all();
    write_report();
    return ferror(stdout) ? 1 : 0;
}
