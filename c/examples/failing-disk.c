/*
 * failing-disk: a disk of one's own whose third write fails after one sector. A mirror or a file system is tested so:
 * what does it do when just this request fails?
 *
 *     cc -o failing-disk failing-disk.c $(pkg-config --cflags --libs tazbrev)
 */
#include <tazbrev.h>

#include <stdio.h>
#include <string.h>

enum { SECTOR = 512, SECTORS = 64, FAILS = 3 };

struct disk {
    uint8_t bytes[SECTORS * SECTOR];
    int writes;
};

static int32_t on_read(void *arg, struct tzb_ask *ask, uint8_t *bytes, size_t len)
{
    memcpy(bytes, ((struct disk *)arg)->bytes + ask->first * ask->sector, len);
    return 0;
}

static int32_t on_write(void *arg, struct tzb_ask *ask, const uint8_t *bytes, size_t len)
{
    struct disk *disk = arg;
    if (++disk->writes == FAILS) {
        ask->done = 1;
        len = ask->sector;
    }
    memcpy(disk->bytes + ask->first * ask->sector, bytes, len);
    return disk->writes == FAILS ? TZB_EIO : 0;
}

static void done(void *arg, int32_t error, const uint8_t *bytes, size_t len)
{
    (void)bytes;
    (void)len;
    printf("%s: %s\n", (const char *)arg, error == 0 ? "well" : tzb_error_name(error));
}

static int use(struct tzb_mesh *mesh, struct disk *disk)
{
    static const struct tzb_disk_ops ops = {.size = sizeof ops, .on_read = on_read, .on_write = on_write};
    static char *const names[] = {"first", "second", "third", "fourth"};
    static uint8_t bytes[4 * SECTOR];

    if (tzb_mesh_set_disk(mesh, "md0", &ops, disk, sizeof disk->bytes) != 0 ||
        tzb_mesh_open(mesh, "disk md0 512\nactor a\n") != 0 || tzb_mesh_run(mesh) != 0 ||
        tzb_mesh_open_handle(mesh, "a", "h", "md0", 0, 1, 0) != 0)
        return 1;
    for (int i = 0; i < 4; i++) {
        memset(bytes, '1' + i, sizeof bytes);
        if (tzb_mesh_write(mesh, "a", "h", (uint64_t)i * sizeof bytes, bytes, sizeof bytes, done, names[i]) != 0)
            return 1;
    }
    if (tzb_mesh_run(mesh) != 0)
        return 1;
    for (int i = 0; i < 16; i++)
        putchar(disk->bytes[i * SECTOR] != 0 ? disk->bytes[i * SECTOR] : '.');
    putchar('\n');
    return tzb_mesh_close_handle(mesh, "a", "h") != 0;
}

int main(void)
{
    static struct disk disk;
    struct tzb_mesh *mesh = tzb_mesh_create();
    int status = mesh == NULL || use(mesh, &disk) != 0;
    tzb_mesh_close(mesh);
    return status;
}
