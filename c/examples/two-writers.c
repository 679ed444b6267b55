/*
 * two-writers: who writes excludes another who writes, as long as he has an exclusive right. Readers may stay.
 *
 *     cc -o two-writers two-writers.c $(pkg-config --cflags --libs tazbrev)
 */
#include <tazbrev.h>

#include <stdio.h>

static void tell(const char *what, int32_t outcome)
{
    printf("%s: %s\n", what, outcome == 0 ? "well" : tzb_error_name(outcome));
}

static int use(struct tzb_mesh *mesh)
{
    static char text[1024];
    size_t need;

    if (tzb_mesh_open(mesh, "ram md0 512 16\nactor alice\nactor bob\n") != 0 || tzb_mesh_run(mesh) != 0)
        return 1;
    tell("alice writes, and excludes others", tzb_mesh_open_handle(mesh, "alice", "h", "md0", 1, 1, 1));
    tell("bob writes", tzb_mesh_open_handle(mesh, "bob", "h", "md0", 1, 1, 0));
    tell("bob reads", tzb_mesh_open_handle(mesh, "bob", "h", "md0", 1, 0, 0));
    if (tzb_mesh_list(mesh, text, sizeof text, &need) != 0)
        return 1;
    printf("%s", text);
    tell("alice leaves", tzb_mesh_close_handle(mesh, "alice", "h"));
    tell("bob writes", tzb_mesh_open_handle(mesh, "bob", "k", "md0", 1, 1, 0));
    return tzb_mesh_run(mesh) != 0;
}

int main(void)
{
    struct tzb_mesh *mesh = tzb_mesh_create();
    int status = mesh == NULL || use(mesh) != 0;
    tzb_mesh_close(mesh);
    return status;
}
