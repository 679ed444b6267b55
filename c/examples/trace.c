/*
 * trace: a mesh whose each step is told. Prints a trace, which `geomrun verify` judges.
 *
 *     cc -o trace trace.c $(pkg-config --cflags --libs tazbrev)
 */
#define _POSIX_C_SOURCE 200809L
#include <tazbrev.h>

#include <stdio.h>
#include <stdlib.h>

enum { PARTS = 3 };

/* The parts of the trace, as they grow. */
struct trace {
    FILE *files[PARTS];
    char *texts[PARTS];
    size_t lens[PARTS];
};

static void told(void *arg, int32_t part, const char *text, size_t len)
{
    fwrite(text, 1, len, ((struct trace *)arg)->files[part]);
}

static int use(struct tzb_mesh *mesh)
{
    static char bytes[512], back[1024];
    for (size_t at = 0; at < sizeof bytes; at++)
        bytes[at] = 0x11;
    return tzb_mesh_open(mesh, "ram md0 512 8\nactor a\n") || tzb_mesh_run(mesh) ||
           tzb_mesh_open_handle(mesh, "a", "h", "md0", 1, 1, 0) || tzb_mesh_run(mesh) ||
           tzb_mesh_write(mesh, "a", "h", 512, bytes, sizeof bytes, NULL, NULL) || tzb_mesh_run(mesh) ||
           tzb_mesh_read(mesh, "a", "h", 0, back, sizeof back, NULL, NULL) || tzb_mesh_run(mesh) ||
           tzb_mesh_close_handle(mesh, "a", "h") || tzb_mesh_run(mesh);
}

/* The script, the steps, a mark, the replies in the order of their lines (here they came so), and the mesh. */
static int print(struct tzb_mesh *mesh, struct trace *trace)
{
    static char list[4096];
    size_t need;
    for (int part = 0; part < PARTS; part++)
        fclose(trace->files[part]);
    int failed = tzb_mesh_list(mesh, list, sizeof list, &need);
    printf("%s%s%% report\n%s%s", trace->texts[TZB_TOLD_SCRIPT], trace->texts[TZB_TOLD_STEP],
           trace->texts[TZB_TOLD_REPLY], list);
    for (int part = 0; part < PARTS; part++)
        free(trace->texts[part]);
    return failed;
}

int main(void)
{
    struct trace trace;
    struct tzb_mesh *mesh = tzb_mesh_create();
    for (int part = 0; part < PARTS; part++)
        if ((trace.files[part] = open_memstream(&trace.texts[part], &trace.lens[part])) == NULL)
            return 1;
    int failed = mesh == NULL || tzb_mesh_set_listener(mesh, told, &trace) || use(mesh);
    failed = print(mesh, &trace) || failed;
    tzb_mesh_close(mesh);
    return failed;
}
