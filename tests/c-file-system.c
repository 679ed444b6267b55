/*
 * c-file-system IMAGE FOLDER: a file system on a stripe of two disks of one's own, of which one fails at a chosen
 * request, as nbdcopy sees it over NBD. IMAGE is the file system. It ends with status 1 if
 *
 * - a write of a disk fails, and nbdcopy isn't told so, or the disks have anything else than all that was copied before
 *   and what the disk did of its own write;
 * - a read of a disk fails, and nbdcopy isn't told so;
 * - the disk has recovered, and what is copied in and out again isn't the image, or e2fsck finds it not clean.
 */
#define _POSIX_C_SOURCE 200809L
#include <tazbrev.h>

#include <fcntl.h>
#include <stdio.h>
#include <stdlib.h>
#include <string.h>
#include <sys/socket.h>
#include <sys/un.h>
#include <sys/wait.h>
#include <unistd.h>

#define CHECK(is_so) (is_so ? (void)0 : failed(#is_so, __LINE__))

enum { SECTOR = 512, SECTORS = 8192, STRIPE = 4096, REQUEST = 32768, SIZE = 2 * SECTORS * SECTOR, MOST_PATH = 100 };
enum { READ, WRITE, LEAVE };

struct disk {
    uint8_t bytes[SECTORS * SECTOR];
    int reads_left, writes_left; /* until one fails; 0: none will */
    uint32_t done;               /* so many sectors of the write that fails are done */
};

static struct disk disks[2];
static uint8_t image[SIZE], held[SIZE], wanted[SIZE];
static char in_path[MOST_PATH], out_path[MOST_PATH], said_path[MOST_PATH], uri[MOST_PATH + 30];
static struct tzb_mesh *mesh;
static int listener;

static void failed(const char *what, int line)
{
    printf("line %d: not so: %s\n", line, what);
    exit(1);
}

static int32_t on_read(void *arg, struct tzb_ask *ask, uint8_t *bytes, size_t len)
{
    struct disk *disk = arg;
    if (disk->reads_left > 0 && --disk->reads_left == 0)
        return TZB_EIO;
    memcpy(bytes, disk->bytes + ask->first * SECTOR, len);
    return 0;
}

static int32_t on_write(void *arg, struct tzb_ask *ask, const uint8_t *bytes, size_t len)
{
    struct disk *disk = arg;
    bool fails = disk->writes_left > 0 && --disk->writes_left == 0;
    ask->done = fails ? disk->done : 0;
    memcpy(disk->bytes + ask->first * SECTOR, bytes, fails ? (size_t)disk->done * SECTOR : len);
    return fails ? TZB_EIO : 0;
}

/* ---- A server of NBD for one client, one request at a time ---- */

static bool get(int client, void *bytes, size_t len)
{
    return len == 0 || recv(client, bytes, len, MSG_WAITALL) == (ssize_t)len;
}

static bool put(int client, const void *bytes, size_t len)
{
    return send(client, bytes, len, MSG_NOSIGNAL) == (ssize_t)len;
}

static uint64_t number(const uint8_t *at, int count)
{
    uint64_t number = 0;
    while (count-- > 0)
        number = number << 8 | *at++;
    return number;
}

static void place(uint8_t *at, uint64_t number, int count)
{
    for (; count-- > 0; number >>= 8)
        at[count] = (uint8_t)number;
}

/* Takes an export's name, which is any. Each other option is unknown. */
static bool greet(int client)
{
    uint8_t head[16], told[134] = "NBDMAGICIHAVEOPT\0\1";
    static uint8_t skipped[4096];
    if (!put(client, told, 18) || !get(client, head, 4))
        return false;
    while (get(client, head, sizeof head) && number(head + 12, 4) <= sizeof skipped &&
           get(client, skipped, number(head + 12, 4))) {
        memset(told, 0, sizeof told);
        place(told, SIZE, 8);
        place(told + 8, 5, 2); /* it has flags, and a flush may be sent */
        if (number(head + 8, 4) == 1)
            return put(client, told, sizeof told);
        place(told, 0x3e889045565a9, 8);
        memcpy(told + 8, head + 8, 4); /* unknown: no data behind it */
        place(told + 12, 0x80000001, 4);
        if (!put(client, told, 20))
            break;
    }
    return false;
}

static void done(void *arg, int32_t error, const uint8_t *bytes, size_t len)
{
    (void)bytes;
    (void)len;
    *(int32_t *)arg = error;
}

/* Makes a request of a client's. False: it leaves, or has left. */
static bool answer(int client)
{
    uint8_t head[28], told[16] = {0};
    static uint8_t bytes[REQUEST];
    int32_t error = TZB_CLOSED, code;
    if (!get(client, head, sizeof head))
        return false;
    uint64_t kind = number(head + 6, 2), offset = number(head + 16, 8), len = number(head + 24, 4);
    if (kind == LEAVE || len > REQUEST || (kind == WRITE && !get(client, bytes, len)))
        return false;
    if (kind == READ)
        code = tzb_mesh_read(mesh, "a", "h", offset, bytes, len, done, &error);
    else if (kind == WRITE)
        code = tzb_mesh_write(mesh, "a", "h", offset, bytes, len, done, &error);
    else
        code = tzb_mesh_flush(mesh, "a", "h", done, &error);
    CHECK(code == 0 && tzb_mesh_run(mesh) == 0);
    place(told, 0x67446698, 4);
    place(told + 4, (uint64_t)tzb_errno(error), 4);
    memcpy(told + 8, head + 8, 8);
    return put(client, told, sizeof told) && (kind != READ || error != 0 || put(client, bytes, len));
}

/* Whether nbdcopy copies, one request at a time, all in order, and zeros as well. */
static bool copies(const char *from, const char *to)
{
    int status;
    pid_t copier = fork();
    if (copier == 0) {
        if (dup2(open(said_path, O_WRONLY | O_CREAT | O_TRUNC, 0600), 2) == 2)
            execlp("nbdcopy", "nbdcopy", "--request-size=32768", "--requests=1", "--connections=1", "--no-extents",
                   "--sparse=0", from, to, (char *)NULL);
        _exit(127);
    }
    int client = accept(listener, NULL, NULL);
    if (greet(client))
        while (answer(client))
            ;
    close(client);
    CHECK(copier > 0 && waitpid(copier, &status, 0) == copier && WIFEXITED(status) && WEXITSTATUS(status) <= 1);
    return WEXITSTATUS(status) == 0;
}

/* ---- What is tried ---- */

static void load(const char *path, uint8_t *bytes)
{
    FILE *file = fopen(path, "r");
    CHECK(file != NULL && fread(bytes, 1, SIZE, file) == SIZE);
    fclose(file);
}

/* What the stripe holds. */
static const uint8_t *striped(void)
{
    for (size_t at = 0; at < SIZE; at += STRIPE)
        memcpy(held + at, disks[at / STRIPE % 2].bytes + at / STRIPE / 2 * STRIPE, STRIPE);
    return held;
}

/* The 20th write of the right disk fails after 3 sectors: it is the last one of the fifth request. */
static void try_write(void)
{
    memset(disks, 0, sizeof disks);
    disks[1].writes_left = 20;
    disks[1].done = 3;
    CHECK(!copies(in_path, uri));
    memcpy(wanted, image, 39 * STRIPE + 3 * SECTOR);
    CHECK(memcmp(striped(), wanted, SIZE) == 0);
}

static void try_read(void)
{
    CHECK(copies(in_path, uri) && memcmp(striped(), image, SIZE) == 0);
    disks[0].reads_left = 30;
    CHECK(!copies(uri, out_path));
}

static void try_again(void)
{
    char check[3 * MOST_PATH];
    memset(disks, 0, sizeof disks);
    disks[0].writes_left = 1;
    CHECK(!copies(in_path, uri));
    CHECK(copies(in_path, uri) && copies(uri, out_path));
    load(out_path, held);
    CHECK(memcmp(held, image, SIZE) == 0);
    snprintf(check, sizeof check, "e2fsck -fn %s >%s 2>&1", out_path, said_path);
    CHECK(system(check) == 0);
}

int main(int count, char **words)
{
    static const struct tzb_disk_ops ops = {sizeof ops, on_read, on_write, NULL, NULL};
    struct sockaddr_un address = {.sun_family = AF_UNIX};
    CHECK(count == 3 && strlen(words[1]) < MOST_PATH && strlen(words[2]) < MOST_PATH - 12);
    strcpy(in_path, words[1]);
    snprintf(out_path, sizeof out_path, "%s/out.raw", words[2]);
    snprintf(said_path, sizeof said_path, "%s/said", words[2]);
    snprintf(address.sun_path, sizeof address.sun_path, "%s/socket", words[2]);
    snprintf(uri, sizeof uri, "nbd+unix:///?socket=%s", address.sun_path);
    load(in_path, image);
    listener = socket(AF_UNIX, SOCK_STREAM | SOCK_CLOEXEC, 0);
    CHECK(bind(listener, (struct sockaddr *)&address, sizeof address) == 0 && listen(listener, 1) == 0);
    mesh = tzb_mesh_create();
    CHECK(tzb_mesh_set_disk(mesh, "left", &ops, &disks[0], sizeof disks[0].bytes) == 0);
    CHECK(tzb_mesh_set_disk(mesh, "right", &ops, &disks[1], sizeof disks[1].bytes) == 0);
    CHECK(tzb_mesh_open(mesh, "disk left 512\ndisk right 512\nactor a\n") == 0 && tzb_mesh_run(mesh) == 0);
    CHECK(tzb_mesh_command(mesh, "a", "stripe s 4096 left right", NULL, NULL) == 0 && tzb_mesh_run(mesh) == 0);
    CHECK(tzb_mesh_open_handle(mesh, "a", "h", "stripe/s", 1, 1, 0) == 0);
    try_write();
    try_read();
    try_again();
    tzb_mesh_close(mesh);
    puts("a write fails, a read fails, the disk recovers");
    return 0;
}
