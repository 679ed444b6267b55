/*
 * nbdkit-plugin: the providers of a mesh as block devices over NBD.
 *
 *     nbdkit ./nbdkit-tazbrev-plugin.so script=FILE [disk=NAME:FILE ..] [provider=NAME] [exclusive=true]
 *
 * The script (docs/geomrun.8) has the disks of the mesh and what is set up over them; disk= says which file a disk is.
 * A client names the provider that it wants as the export, or gets provider=. The export @mesh is the mesh as text.
 *
 * A connection is a handle of the mesh, r1w1 or, under `nbdkit -r`, r1; with exclusive=true it has an exclusive right
 * too. It is closed when the client leaves, and then what it wrote is tasted: a partition table makes its slices.
 *
 * UNPROVED: this file. Requests are cut here, and files are read and written; which sectors are asked is the library's.
 */
#define NBDKIT_API_VERSION 2
#define _GNU_SOURCE
#include <nbdkit-plugin.h>

#include <errno.h>
#include <fcntl.h>
#include <pthread.h>
#include <stdio.h>
#include <stdlib.h>
#include <string.h>
#include <sys/file.h>
#include <sys/stat.h>
#include <unistd.h>

#include "tazbrev.h"

#define THREAD_MODEL NBDKIT_THREAD_MODEL_PARALLEL
#define CLIENTS "nbd" /* the actor to whom the handles of connections belong */
#define MESH "@mesh"

enum { MOST_FILES = 16, MOST_NAME = 64, MOST_SCRIPT = 1 << 20, MOST_LINE = 8193 };

/* A connection. */
struct connection {
    char handle[17];
    char *listing; /* of @mesh, else NULL */
    int64_t size;
    uint32_t sector;
};

/* What a client waits for: pieces that are on their way. */
struct job {
    struct job *next, *previous; /* in the ring of jobs that sleep, if `sleeps` */
    pthread_cond_t wakes;
    bool sleeps;
    uint32_t left;
    int32_t error; /* of the first piece that failed */
};

static char *script, *provider;
static int exclusive;
static int files[MOST_FILES];
static int file_count;
static struct tzb_mesh *mesh;
static pthread_mutex_t mutex = PTHREAD_MUTEX_INITIALIZER;
static struct job sleepers = {.next = &sleepers, .previous = &sleepers};
static uint64_t moves; /* rises with whatever may have made something due */
static int drivers, most_drivers = 1;
static uint32_t handles;

static void lock(void *arg)
{
    pthread_mutex_lock(arg);
}

static void unlock(void *arg)
{
    pthread_mutex_unlock(arg);
}

/* ---- Files as disks ---- */

static int32_t file_read(void *arg, struct tzb_ask *ask, uint8_t *bytes, size_t len)
{
    off_t at = (off_t)(ask->first * ask->sector);
    while (len > 0) {
        ssize_t count = pread(*(int *)arg, bytes, len, at);
        if (count == 0 || (count < 0 && errno != EINTR))
            return TZB_EIO;
        if (count > 0)
            bytes += count, len -= (size_t)count, at += count;
    }
    return 0;
}

static int32_t file_write(void *arg, struct tzb_ask *ask, const uint8_t *bytes, size_t len)
{
    off_t at = (off_t)(ask->first * ask->sector);
    size_t left = len;
    while (left > 0) {
        ssize_t count = pwrite(*(int *)arg, bytes, left, at);
        if (count == 0 || (count < 0 && errno != EINTR)) {
            ask->done = (uint32_t)((len - left) / ask->sector);
            return TZB_EIO;
        }
        if (count > 0)
            bytes += count, left -= (size_t)count, at += count;
    }
    return 0;
}

static int32_t file_delete(void *arg, struct tzb_ask *ask)
{
    static const uint8_t zeros[TZB_MOST_BYTES];
    size_t len = (size_t)ask->count * ask->sector;
    off_t at = (off_t)(ask->first * ask->sector);
    if (fallocate(*(int *)arg, FALLOC_FL_PUNCH_HOLE | FALLOC_FL_KEEP_SIZE, at, (off_t)len) == 0)
        return 0;
    return file_write(arg, ask, zeros, len);
}

static int32_t file_flush(void *arg, struct tzb_ask *ask)
{
    (void)ask;
    return fdatasync(*(int *)arg) == 0 ? 0 : TZB_EIO;
}

static const struct tzb_disk_ops file_ops = {sizeof file_ops, file_read, file_write, file_delete, file_flush};

/* Opens NAME:FILE as a disk, and locks the file as geomrun does. */
static int add_file(const char *value)
{
    const char *colon = strchr(value, ':');
    char name[MOST_NAME];
    if (colon == NULL || colon - value >= MOST_NAME || file_count == MOST_FILES) {
        nbdkit_error("disk=%s: NAME:FILE is wanted, at most %d times", value, MOST_FILES);
        return -1;
    }
    snprintf(name, sizeof name, "%.*s", (int)(colon - value), value);
    int *file = &files[file_count];
    *file = open(colon + 1, O_RDWR | O_CLOEXEC);
    if (*file < 0 && (errno == EACCES || errno == EROFS))
        *file = open(colon + 1, O_RDONLY | O_CLOEXEC);
    off_t size = *file < 0 ? -1 : lseek(*file, 0, SEEK_END);
    if (size < 0 || flock(*file, LOCK_EX | LOCK_NB) != 0) {
        nbdkit_error("disk %s: %s: %m", name, colon + 1);
        return -1;
    }
    file_count++;
    int32_t code = tzb_mesh_set_disk(mesh, name, &file_ops, file, (uint64_t)size);
    if (code != 0)
        nbdkit_error("disk %s: %s", name, tzb_strerror(code));
    return code == 0 ? 0 : -1;
}

/* ---- Parameters ---- */

static void plugin_load(void)
{
    mesh = tzb_mesh_create();
}

static int plugin_config(const char *key, const char *value)
{
    if (mesh == NULL) {
        nbdkit_error("memory was wanting");
        return -1;
    }
    if (strcmp(key, "disk") == 0)
        return add_file(value);
    if (strcmp(key, "exclusive") == 0)
        return (exclusive = nbdkit_parse_bool(value)) < 0 ? -1 : 0;
    if (strcmp(key, "script") != 0 && strcmp(key, "provider") != 0) {
        nbdkit_error("there is no parameter %s", key);
        return -1;
    }
    char **to = strcmp(key, "script") == 0 ? &script : &provider;
    free(*to);
    *to = to == &script ? nbdkit_realpath(value) : strdup(value);
    return *to != NULL ? 0 : -1;
}

static int plugin_config_complete(void)
{
    if (script != NULL)
        return 0;
    nbdkit_error("script=FILE is wanted: the disks, the actors and what is set up");
    return -1;
}

/* ---- The mesh goes on ---- */

/* Wakes one that sleeps, so that somebody makes what is due. With the lock taken. */
static void wake_one(void)
{
    moves++;
    if (sleepers.next != &sleepers)
        pthread_cond_signal(&sleepers.next->wakes);
}

/* Sleeps until the job's reply came, or something may be due. With the lock taken. */
static void sleep_on(struct job *job)
{
    job->sleeps = true;
    job->next = &sleepers;
    job->previous = sleepers.previous;
    job->previous->next = sleepers.previous = job;
    pthread_cond_wait(&job->wakes, &mutex);
    job->previous->next = job->next;
    job->next->previous = job->previous;
    job->sleeps = false;
}

/* A piece of a job has its reply. */
static void piece_done(void *arg, int32_t error, const uint8_t *bytes, size_t len)
{
    struct job *job = arg;
    (void)bytes;
    (void)len;
    pthread_mutex_lock(&mutex);
    job->left--;
    if (error != 0 && job->error == 0)
        job->error = error;
    if (job->left == 0 && job->sleeps)
        pthread_cond_signal(&job->wakes);
    pthread_mutex_unlock(&mutex);
}

/* Goes on until all pieces of a job have their replies, or nothing is due. With the lock taken. */
static void drive(struct job *job)
{
    bool is_idle = false;
    drivers++;
    while (job->left > 0 && !is_idle) {
        uint64_t seen = moves;
        pthread_mutex_unlock(&mutex);
        int32_t kind = tzb_mesh_step(mesh);
        if (kind == TZB_NO_MEMORY)
            usleep(1000);
        pthread_mutex_lock(&mutex);
        if (kind == TZB_ASK && drivers < most_drivers)
            wake_one();
        else if (kind == TZB_ASK)
            moves++;
        is_idle = kind == TZB_IDLE && seen == moves;
    }
    drivers--;
}

/*
 * Waits until all pieces of a job have their replies. As many threads as there are disks make what is due, and the
 * others sleep. One that found nothing due looks again if something has moved since.
 */
static int finish(struct job *job)
{
    pthread_mutex_lock(&mutex);
    moves++;
    while (job->left > 0) {
        if (drivers < most_drivers)
            drive(job);
        if (job->left > 0)
            sleep_on(job);
    }
    wake_one();
    pthread_mutex_unlock(&mutex);
    pthread_cond_destroy(&job->wakes);
    if (job->error == 0)
        return 0;
    nbdkit_set_error(tzb_errno(job->error));
    nbdkit_debug("%s: %s", tzb_error_name(job->error), tzb_strerror(job->error));
    return -1;
}

/* Counts a piece before it is given, since its reply may come at once in another thread. */
static void count_piece(struct job *job, int by)
{
    pthread_mutex_lock(&mutex);
    job->left += (uint32_t)by;
    pthread_mutex_unlock(&mutex);
}

/* Goes on until nothing is due. */
static int32_t settle(void)
{
    int32_t code;
    while ((code = tzb_mesh_run(mesh)) == TZB_NO_MEMORY)
        usleep(1000);
    pthread_mutex_lock(&mutex);
    wake_one();
    pthread_mutex_unlock(&mutex);
    return code;
}

/* ---- The script ---- */

static bool is_of_header(const char *line)
{
    return line[0] == '\n' || line[0] == '\0' || line[0] == '#' || strncmp(line, "disk ", 5) == 0 ||
           strncmp(line, "ram ", 4) == 0 || strncmp(line, "actor ", 6) == 0;
}

static bool writes(const char *word)
{
    static const char *const words[] = {"write", "delete", "label", "relabel", "mark"};
    for (size_t i = 0; i < sizeof words / sizeof *words; i++)
        if (strncmp(word, words[i], strlen(words[i])) == 0 && word[strlen(words[i])] == ' ')
            return true;
    return false;
}

static void command_done(void *arg, int32_t error, const uint8_t *bytes, size_t len)
{
    (void)bytes;
    (void)len;
    *(int32_t *)arg = error;
}

/* Makes a line of the script, and all that follows from it. */
static int make_line(char *line, uint32_t number)
{
    char *word = strchr(line, ' ');
    int32_t error = 0;
    if (word != NULL)
        *word++ = '\0';
    if (word != NULL && writes(word)) {
        nbdkit_error("%s: line %u: a script that sets up doesn't write to disks: use geomrun for it", script, number);
        return -1;
    }
    int32_t code = word == NULL ? TZB_WRONG : tzb_mesh_command(mesh, line, word, command_done, &error);
    if (code == 0)
        code = settle();
    if (code == 0)
        code = error;
    if (code == TZB_WRONG)
        nbdkit_error("%s: line %u: that isn't a line of a script", script, number);
    else if (code == TZB_UNFIT)
        nbdkit_error("%s: line %u: there is no such actor", script, number);
    else if (code != 0)
        nbdkit_error("%s: line %u: %s: %s", script, number, tzb_error_name(code), tzb_strerror(code));
    return code == 0 ? 0 : -1;
}

/* Opens the mesh with the header, to which the actor of the clients is added. */
static int open_header(const char *text, size_t len)
{
    char *header = malloc(len + sizeof "\nactor " CLIENTS "\n");
    if (header == NULL)
        return -1;
    memcpy(header, text, len);
    strcpy(header + len, len > 0 && text[len - 1] != '\n' ? "\n" : "");
    if (strncmp(header, "actor " CLIENTS "\n", strlen(CLIENTS) + 7) != 0 &&
        strstr(header, "\nactor " CLIENTS "\n") == NULL)
        strcat(header, "actor " CLIENTS "\n");
    int32_t code = tzb_mesh_set_lock(mesh, lock, unlock, &mutex);
    if (code == 0)
        code = tzb_mesh_open(mesh, header);
    free(header);
    if (code == TZB_WRONG)
        nbdkit_error("%s: line %u: %s%s", script, tzb_mesh_fault_line(mesh), tzb_mesh_fault(mesh),
                     strstr(tzb_mesh_fault(mesh), "no functions") != NULL ? ": give disk=NAME:FILE" : "");
    else if (code != 0 || (code = settle()) != 0)
        nbdkit_error("%s: %s", script, tzb_strerror(code));
    return code == 0 ? 0 : -1;
}

static int run_script(char *text)
{
    char *at = text;
    uint32_t number = 1;
    while (*at != '\0' && is_of_header(at)) {
        at += strcspn(at, "\n");
        at += *at == '\n';
        number++;
    }
    if (open_header(text, (size_t)(at - text)) != 0)
        return -1;
    for (; *at != '\0'; number++) {
        size_t len = strcspn(at, "\n");
        bool is_last = at[len] == '\0';
        at[len] = '\0';
        if (at[0] != '\0' && at[0] != '#' && make_line(at, number) != 0)
            return -1;
        at += len + !is_last;
    }
    return 0;
}

static int plugin_get_ready(void)
{
    FILE *file = fopen(script, "r");
    char *text = calloc(1, MOST_SCRIPT + 1);
    int status = -1;
    if (file == NULL || text == NULL)
        nbdkit_error("%s: %m", script);
    else if (fread(text, 1, MOST_SCRIPT, file) == MOST_SCRIPT)
        nbdkit_error("%s is too long", script);
    else
        status = run_script(text);
    most_drivers = file_count > 1 ? file_count : 1;
    free(text);
    if (file != NULL)
        fclose(file);
    return status;
}

static void plugin_unload(void)
{
    tzb_mesh_close(mesh);
    free(script);
    free(provider);
    while (file_count > 0)
        close(files[--file_count]);
}

/* ---- Exports ---- */

/* The mesh as text, to be freed. NULL: memory was wanting. */
static char *listing(void)
{
    size_t need = 0;
    char *text = NULL;
    while (tzb_mesh_list(mesh, text, text != NULL ? need : 0, &need) == TZB_ROOM) {
        free(text);
        text = malloc(need);
        if (text == NULL)
            break;
    }
    return text;
}

/* The next line of a listing that tells a provider, and what it says. NULL: there is none. */
static const char *next_provider(const char *at, char name[MOST_NAME], int64_t *size, uint32_t *sector)
{
    long long bytes;
    while ((at = strstr(at, "  provider ")) != NULL) {
        int count = sscanf(at, "  provider %63s size %lld sector %u", name, &bytes, sector);
        at += strcspn(at, "\n");
        if (count == 3) {
            *size = bytes;
            return at;
        }
    }
    return NULL;
}

static int plugin_list_exports(int readonly, int is_tls, struct nbdkit_exports *exports)
{
    char name[MOST_NAME], about[64];
    int64_t size;
    uint32_t sector;
    (void)readonly;
    (void)is_tls;
    settle();
    char *text = listing();
    if (text == NULL)
        return -1;
    for (const char *at = text; (at = next_provider(at, name, &size, &sector)) != NULL;) {
        snprintf(about, sizeof about, "%lld bytes, sectors of %u", (long long)size, sector);
        if (nbdkit_add_export(exports, name, about) != 0)
            break;
    }
    free(text);
    return nbdkit_add_export(exports, MESH, "the mesh as text");
}

static const char *plugin_default_export(int readonly, int is_tls)
{
    (void)readonly;
    (void)is_tls;
    return provider != NULL ? provider : "";
}

/* Opens a provider for a connection. */
static int open_provider(struct connection *it, const char *name, int readonly)
{
    char found[MOST_NAME];
    char *text = listing();
    const char *at = text;
    while (at != NULL && (at = next_provider(at, found, &it->size, &it->sector)) != NULL && strcmp(found, name) != 0)
        ;
    free(text);
    if (at == NULL) {
        nbdkit_error("there is no provider \"%s\"", name);
        return -1;
    }
    pthread_mutex_lock(&mutex);
    snprintf(it->handle, sizeof it->handle, "c%u", handles++);
    pthread_mutex_unlock(&mutex);
    int32_t code = tzb_mesh_open_handle(mesh, CLIENTS, it->handle, name, 1, !readonly, exclusive != 0);
    if (code != 0) {
        nbdkit_error("%s: %s: %s", name, tzb_error_name(code), tzb_strerror(code));
        nbdkit_set_error(tzb_errno(code));
    }
    return code == 0 ? 0 : -1;
}

static void *plugin_open(int readonly)
{
    const char *name = nbdkit_export_name();
    struct connection *it = calloc(1, sizeof *it);
    if (it == NULL || name == NULL) {
        free(it);
        return NULL;
    }
    if (name[0] == '\0')
        name = plugin_default_export(readonly, 0);
    settle();
    int status = 0;
    if (strcmp(name, MESH) == 0) {
        it->listing = listing();
        it->size = it->listing != NULL ? (int64_t)strlen(it->listing) : 0;
        status = it->listing != NULL ? 0 : -1;
    } else {
        status = open_provider(it, name, readonly);
    }
    if (status == 0)
        return it;
    free(it);
    return NULL;
}

static void plugin_close(void *handle)
{
    struct connection *it = handle;
    if (it->listing == NULL) {
        int32_t code;
        while ((code = tzb_mesh_close_handle(mesh, CLIENTS, it->handle)) == TZB_NO_MEMORY)
            usleep(1000);
        if (code != 0)
            nbdkit_error("%s: %s", it->handle, tzb_strerror(code));
        settle();
    }
    free(it->listing);
    free(it);
}

static int64_t plugin_get_size(void *handle)
{
    return ((struct connection *)handle)->size;
}

static int plugin_can_write(void *handle)
{
    return ((struct connection *)handle)->listing == NULL;
}

static int plugin_can_multi_conn(void *handle)
{
    (void)handle;
    return !exclusive;
}

static int plugin_block_size(void *handle, uint32_t *minimum, uint32_t *preferred, uint32_t *maximum)
{
    struct connection *it = handle;
    *minimum = it->listing != NULL ? 1 : it->sector;
    *preferred = TZB_MOST_BYTES;
    *maximum = 0xffffffff;
    return 0;
}

/* ---- Requests: pieces of at most TZB_MOST_BYTES that are out together ---- */

static int32_t give_piece(const struct connection *it, uint32_t op, uint8_t *to, const uint8_t *from, uint64_t offset,
                          uint32_t len, struct job *job)
{
    switch (op) {
    case TZB_READ:
        return tzb_mesh_read(mesh, CLIENTS, it->handle, offset, to, len, piece_done, job);
    case TZB_WRITE:
        return tzb_mesh_write(mesh, CLIENTS, it->handle, offset, from, len, piece_done, job);
    case TZB_DELETE:
        return tzb_mesh_delete(mesh, CLIENTS, it->handle, offset, len, piece_done, job);
    default:
        return tzb_mesh_flush(mesh, CLIENTS, it->handle, piece_done, job);
    }
}

static int request(const struct connection *it, uint32_t op, uint8_t *to, const uint8_t *from, uint64_t offset,
                   uint32_t len)
{
    struct job job = {.wakes = PTHREAD_COND_INITIALIZER};
    do {
        uint32_t count = len < TZB_MOST_BYTES ? len : TZB_MOST_BYTES;
        count_piece(&job, 1);
        int32_t code = give_piece(it, op, to, from, offset, count, &job);
        if (code != 0) {
            count_piece(&job, -1);
            job.error = job.error != 0 ? job.error : code;
            break;
        }
        to = to != NULL ? to + count : NULL;
        from = from != NULL ? from + count : NULL;
        offset += count;
        len -= count;
    } while (len > 0);
    return finish(&job);
}

static int plugin_pread(void *handle, void *bytes, uint32_t len, uint64_t offset, uint32_t flags)
{
    struct connection *it = handle;
    (void)flags;
    if (it->listing == NULL)
        return request(it, TZB_READ, bytes, NULL, offset, len);
    memcpy(bytes, it->listing + offset, len);
    return 0;
}

static int plugin_pwrite(void *handle, const void *bytes, uint32_t len, uint64_t offset, uint32_t flags)
{
    (void)flags;
    return request(handle, TZB_WRITE, NULL, bytes, offset, len);
}

static int plugin_trim(void *handle, uint32_t len, uint64_t offset, uint32_t flags)
{
    (void)flags;
    return request(handle, TZB_DELETE, NULL, NULL, offset, len);
}

static int plugin_flush(void *handle, uint32_t flags)
{
    (void)flags;
    return request(handle, TZB_FLUSH, NULL, NULL, 0, 0);
}

static struct nbdkit_plugin plugin = {
    .name = "tazbrev",
    .longname = "a proved GEOM mesh",
    .version = TZB_VERSION,
    .description = "The providers of a mesh of FreeBSD's GEOM as block devices.",
    .config_help = "script=<FILE>        (required) The disks, the actors, and what is set up over them.\n"
                   "disk=<NAME>:<FILE>   The file of a disk of the script.\n"
                   "provider=<NAME>      What clients get that name no export.\n"
                   "exclusive=<BOOL>     Whether a connection excludes others that write (default: false).",
    .magic_config_key = "script",
    .load = plugin_load,
    .unload = plugin_unload,
    .config = plugin_config,
    .config_complete = plugin_config_complete,
    .get_ready = plugin_get_ready,
    .list_exports = plugin_list_exports,
    .default_export = plugin_default_export,
    .open = plugin_open,
    .close = plugin_close,
    .get_size = plugin_get_size,
    .block_size = plugin_block_size,
    .can_write = plugin_can_write,
    .can_multi_conn = plugin_can_multi_conn,
    .pread = plugin_pread,
    .pwrite = plugin_pwrite,
    .trim = plugin_trim,
    .zero = plugin_trim,
    .flush = plugin_flush,
};

NBDKIT_REGISTER_PLUGIN(plugin)
