/*
 * pull: a disk goes while requests are out. Its driver answers later: it keeps what it is asked, as one with a queue
 * would, and answers when it likes. Each request has its reply, and the disk is let go once it is idle.
 *
 *     cc -o pull pull.c $(pkg-config --cflags --libs tazbrev)
 */
#include <tazbrev.h>

#include <stdio.h>
#include <string.h>

static uint8_t zeros[TZB_MOST_BYTES];
static struct tzb_ask asked;
static bool is_asked, is_slow;

static int32_t on_read(void *arg, struct tzb_ask *ask, uint8_t *bytes, size_t len)
{
    (void)arg;
    if (is_slow) {
        asked = *ask;
        is_asked = true;
        return TZB_LATER;
    }
    memset(bytes, 0, len);
    return 0;
}

static void done(void *arg, int32_t error, const uint8_t *bytes, size_t len)
{
    (void)bytes;
    (void)len;
    printf("%s: %s\n", (const char *)arg, error == 0 ? "well" : tzb_error_name(error));
}

static void list(struct tzb_mesh *mesh)
{
    static char text[1024];
    size_t need;
    if (tzb_mesh_list(mesh, text, sizeof text, &need) == 0)
        printf("%s", need > 1 ? text : "nothing is left\n");
}

static int use(struct tzb_mesh *mesh)
{
    static const struct tzb_disk_ops ops = {.size = sizeof ops, .on_read = on_read};
    static char *const names[] = {"first", "second", "third"};
    static uint8_t room[3][512];

    if (tzb_mesh_set_disk(mesh, "md0", &ops, NULL, 8192) != 0 ||
        tzb_mesh_open(mesh, "disk md0 512\nactor a\n") != 0 || tzb_mesh_run(mesh) != 0 ||
        tzb_mesh_open_handle(mesh, "a", "h", "md0", 1, 0, 0) != 0)
        return 1;
    is_slow = true;
    for (int i = 0; i < 3; i++)
        if (tzb_mesh_read(mesh, "a", "h", (uint64_t)i * 512, room[i], 512, done, names[i]) != 0)
            return 1;
    if (tzb_mesh_run(mesh) != 0 || tzb_mesh_pull(mesh, "a", "md0") != 0 || tzb_mesh_run(mesh) != 0)
        return 1;
    printf("pulled, and %d wait\n", (int)tzb_mesh_waiting(mesh));
    while (is_asked) {
        is_asked = false;
        if (tzb_mesh_answer_read(mesh, asked.bio, zeros, (size_t)asked.count * asked.sector) != 0 ||
            tzb_mesh_run(mesh) != 0)
            return 1;
    }
    done("one more", tzb_mesh_read(mesh, "a", "h", 0, room[0], 512, done, "one more"), NULL, 0);
    if (tzb_mesh_close_handle(mesh, "a", "h") != 0 || tzb_mesh_run(mesh) != 0)
        return 1;
    list(mesh);
    return 0;
}

int main(void)
{
    struct tzb_mesh *mesh = tzb_mesh_create();
    int status = mesh == NULL || use(mesh) != 0;
    tzb_mesh_close(mesh);
    return status;
}
