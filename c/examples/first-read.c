/*
 * first-read: a mesh over one disk in memory. Writes a sector, reads it back, and prints what was read.
 *
 *     cc -o first-read first-read.c $(pkg-config --cflags --libs tazbrev)
 */
#include <tazbrev.h>

#include <stdio.h>

static void done(void *arg, int32_t error, const uint8_t *bytes, size_t len)
{
    (void)bytes;
    (void)len;
    printf("%s: %s\n", (const char *)arg, tzb_strerror(error));
}

/* 0 if the outcome is well; else it is told. */
static int told(const char *what, int32_t outcome)
{
    if (outcome != 0)
        printf("%s: %s: %s\n", what, tzb_error_name(outcome), tzb_strerror(outcome));
    return outcome != 0;
}

static int use(struct tzb_mesh *mesh)
{
    static char bytes[512] = "hello", back[512];

    if (told("open", tzb_mesh_open(mesh, "ram md0 512 16\nactor a\n")) || told("run", tzb_mesh_run(mesh)))
        return 1;
    if (told("open h", tzb_mesh_open_handle(mesh, "a", "h", "md0", 1, 1, 0)))
        return 1;
    if (told("write", tzb_mesh_write(mesh, "a", "h", 1024, bytes, sizeof bytes, done, "written")) ||
        told("run", tzb_mesh_run(mesh)))
        return 1;
    if (told("read", tzb_mesh_read(mesh, "a", "h", 1024, back, sizeof back, done, "read")) ||
        told("run", tzb_mesh_run(mesh)))
        return 1;
    printf("%s\n", back);
    told("write past the end", tzb_mesh_write(mesh, "a", "h", 16 * 512, bytes, sizeof bytes, done, "written"));
    return told("close h", tzb_mesh_close_handle(mesh, "a", "h"));
}

int main(void)
{
    struct tzb_mesh *mesh = tzb_mesh_create();
    int status = mesh == NULL || use(mesh) != 0;
    tzb_mesh_close(mesh);
    return status;
}
