/*
 * trace: what a mesh does, as text of a trace that `geomrun verify` judges.
 *
 * UNPROVED. Which step is made is the proved part's to say; here it gets the words of a trace. All
 * is told with the lock taken, where it is done.
 */
#include "mesh.h"

#include <inttypes.h>
#include <stdio.h>
#include <string.h>

enum { PIECE = MOST_LINE + 256 };

int32_t tzb_mesh_set_listener(struct tzb_mesh *mesh, tzb_listener *listener, void *arg)
{
    if (mesh->core.is_open)
        return TZB_OPEN;
    mesh->listener = listener;
    mesh->listener_arg = arg;
    return TZB_OK;
}

static void tell(struct tzb_mesh *mesh, int32_t part, const char *format, ...)
{
    char text[PIECE];
    va_list words;
    va_start(words, format);
    int len = vsnprintf(text, sizeof text, format, words);
    va_end(words);
    mesh->listener(mesh->listener_arg, part, text, (size_t)len);
}

/* Bytes as runs of equal ones, with a space in front of each, and the end of the line. */
static void tell_runs(struct tzb_mesh *mesh, int32_t part, const uint8_t *bytes, size_t len)
{
    for (size_t end = 0, at = 0; at < len; at = end) {
        while (end < len && bytes[end] == bytes[at])
            end++;
        tell(mesh, part, " %02x*%zu", bytes[at], end - at);
    }
    tell(mesh, part, "\n");
}

void tell_header(struct tzb_mesh *mesh, const char *header, size_t len)
{
    if (mesh->listener == NULL)
        return;
    mesh->listener(mesh->listener_arg, TZB_TOLD_SCRIPT, header, len);
    mesh->lines = 0;
    for (size_t at = 0; at < len; at++)
        mesh->lines += header[at] == '\n' || at + 1 == len;
    if (len > 0 && header[len - 1] != '\n')
        tell(mesh, TZB_TOLD_SCRIPT, "\n");
    for (uint32_t at = 0; at < mesh->disk_count; at++)
        if (!mesh->disks[at].is_ram)
            tell(mesh, TZB_TOLD_STEP, "%% disk %" PRIu64 "\n", mesh->sizes[at].sectors);
}

void tell_command(struct tzb_mesh *mesh, struct request *it, int32_t code, const uint8_t *data,
                  size_t len, const char *format, va_list words)
{
    char text[PIECE];
    if (mesh->listener == NULL || code < TZB_OK)
        return;
    vsnprintf(text, sizeof text, format, words);
    tell(mesh, TZB_TOLD_SCRIPT, "%s %s", mesh->actors[it->actor], text);
    tell_runs(mesh, TZB_TOLD_SCRIPT, data, len);
    tell(mesh, TZB_TOLD_STEP, "%% 0 go %" PRIu32 "\n", it->actor);
    it->line = ++mesh->lines;
    if (code == TZB_REPLIED)
        tell_reply(mesh, it, it->error, NULL, 0);
}

void tell_reply(struct tzb_mesh *mesh, const struct request *it, uint32_t error,
                const uint8_t *bytes, size_t len)
{
    const char *word = error == 0 ? "ok" : tzb_error_name((int32_t)error) + strlen("TZB_");
    if (mesh->listener == NULL)
        return;
    tell(mesh, TZB_TOLD_REPLY, "%" PRIu64 " %s", it->line, word);
    tell_runs(mesh, TZB_TOLD_REPLY, bytes, len);
}

void tell_step(struct tzb_mesh *mesh, const struct tzb_step *step)
{
    static const char *const names[] = {"",      "up",    "take", "start",
                                        "judge", "event", "reap", "wash"};
    if (mesh->listener == NULL || step->kind == TZB_STEP_NONE)
        return;
    tell(mesh, TZB_TOLD_STEP, "%% 0 %s", names[step->kind]);
    if (step->kind == TZB_STEP_TAKE)
        tell(mesh, TZB_TOLD_STEP, " %" PRIu32, step->place);
    if (step->kind <= TZB_STEP_START)
        tell(mesh, TZB_TOLD_STEP, " %" PRIu64, step->bio);
    tell(mesh, TZB_TOLD_STEP, "\n");
}

void tell_answer(struct tzb_mesh *mesh, uint64_t bio, enum how how, uint32_t done,
                 const uint8_t *bytes, size_t len)
{
    static const char *const words[] = {[BYTES] = "bytes", [DONE] = "done", [FAILED] = "failed"};
    if (mesh->listener == NULL)
        return;
    tell(mesh, TZB_TOLD_STEP, "%% 0 deliver %" PRIu64 " %s", bio, words[how]);
    if (how == FAILED)
        tell(mesh, TZB_TOLD_STEP, " %" PRIu32, done);
    tell_runs(mesh, TZB_TOLD_STEP, bytes, how == BYTES ? len : 0);
}
