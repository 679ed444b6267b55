/*
 * geotrace.h: writes a trace that `geomrun verify` judges (docs/geomrun.8, "Writing a trace").
 *
 * Copy this file; it needs nothing but a C99 compiler and POSIX. A trace has a script, the steps that your program
 * made for it, one a line, and what it reported:
 *
 *     struct geotrace trace = { stdout };
 *     geotrace_script(&trace, "ram md0 512 8\nactor a\na open h md0 r1w1e0\n");
 *     geotrace_event(&trace, 0);
 *     ..
 *     geotrace_report(&trace, "3 ok\ngeom DISK md0 rank 1\n  provider md0 size 4096 sector 512 r0w0e0\n");
 *
 * A step is judged at its place in the trace. So call a function of a step where the step is made, before the lock is
 * given back under which it was made. Each call writes one whole line, also where many threads call at once.
 *
 * SEAT says who made a step, by any numbers that you choose; a `deliver` has the seat of its `take`. Actors and disks
 * are numbered from 0 in the order of the script's header, requests from 1 in the order in which they are made (a `go`
 * makes one if its request is accepted, a `judge` if the class that is asked reads a sector, and a `start` one for each
 * piece).
 *
 * A call answers 0, or -1 if the line could not be written.
 */
#ifndef GEOTRACE_H
#define GEOTRACE_H

#include <stddef.h>
#include <stdint.h>
#include <stdio.h>

struct geotrace {
    FILE *out; /* where the trace goes; the caller opens and closes it */
};

/* Ends what is written under the lock of the file. */
static inline int geotrace_ended(struct geotrace *trace)
{
    int failed = ferror(trace->out);
    funlockfile(trace->out);
    return failed ? -1 : 0;
}

/* Writes a line of a step that has no number. */
static inline int geotrace_step(struct geotrace *trace, uint32_t seat, const char *step)
{
    flockfile(trace->out);
    fprintf(trace->out, "%% %lu %s\n", (unsigned long)seat, step);
    return geotrace_ended(trace);
}

/* Writes a line of a step that has one number. */
static inline int geotrace_numbered(struct geotrace *trace, uint32_t seat, const char *step, uint64_t number)
{
    flockfile(trace->out);
    fprintf(trace->out, "%% %lu %s %llu\n", (unsigned long)seat, step, (unsigned long long)number);
    return geotrace_ended(trace);
}

/* The script, whose last line ends in a line feed. Call it first. */
static inline int geotrace_script(struct geotrace *trace, const char *script)
{
    flockfile(trace->out);
    fputs(script, trace->out);
    return geotrace_ended(trace);
}

/* How many sectors the image of the next `disk` line of the header has. Call it once for each such line. */
static inline int geotrace_disk(struct geotrace *trace, uint64_t sectors)
{
    flockfile(trace->out);
    fprintf(trace->out, "%% disk %llu\n", (unsigned long long)sectors);
    return geotrace_ended(trace);
}

/* An actor's next command is done. */
static inline int geotrace_go(struct geotrace *trace, uint32_t seat, uint32_t actor)
{
    return geotrace_numbered(trace, seat, "go", actor);
}

/* The oldest event is done. */
static inline int geotrace_event(struct geotrace *trace, uint32_t seat)
{
    return geotrace_step(trace, seat, "event");
}

/* The taste under way goes on by one step. */
static inline int geotrace_judge(struct geotrace *trace, uint32_t seat)
{
    return geotrace_step(trace, seat, "judge");
}

/* The consumer of the first dead handle that has no request out goes. */
static inline int geotrace_reap(struct geotrace *trace, uint32_t seat)
{
    return geotrace_step(trace, seat, "reap");
}

/* The first part that can go of the withering geoms goes. */
static inline int geotrace_wash(struct geotrace *trace, uint32_t seat)
{
    return geotrace_step(trace, seat, "wash");
}

/* A request begins its way down. */
static inline int geotrace_start(struct geotrace *trace, uint32_t seat, uint64_t request)
{
    return geotrace_numbered(trace, seat, "start", request);
}

/* A disk takes a request. */
static inline int geotrace_take(struct geotrace *trace, uint32_t seat, uint32_t disk, uint64_t request)
{
    flockfile(trace->out);
    fprintf(trace->out, "%% %lu take %lu %llu\n", (unsigned long)seat, (unsigned long)disk,
            (unsigned long long)request);
    return geotrace_ended(trace);
}

/* The disk has done a write, a delete or a flush. */
static inline int geotrace_deliver_done(struct geotrace *trace, uint32_t seat, uint64_t request)
{
    flockfile(trace->out);
    fprintf(trace->out, "%% %lu deliver %llu done\n", (unsigned long)seat, (unsigned long long)request);
    return geotrace_ended(trace);
}

/* The disk has failed, after it did this many sectors of a write or a delete (0 of a read or a flush). */
static inline int geotrace_deliver_failed(struct geotrace *trace, uint32_t seat, uint64_t request, uint32_t sectors)
{
    flockfile(trace->out);
    fprintf(trace->out, "%% %lu deliver %llu failed %lu\n", (unsigned long)seat, (unsigned long long)request,
            (unsigned long)sectors);
    return geotrace_ended(trace);
}

/* Writes bytes as runs of equal ones, `BB*N` with one space between. The file is locked. */
static inline void geotrace_runs(FILE *out, const unsigned char *bytes, size_t size)
{
    size_t at = 0;

    while (at < size) {
        size_t end = at + 1;

        while (end < size && bytes[end] == bytes[at])
            end++;
        fprintf(out, "%s%02x*%lu", at == 0 ? "" : " ", bytes[at], (unsigned long)(end - at));
        at = end;
    }
}

/* The disk has read these bytes, at least one. */
static inline int geotrace_deliver_bytes(struct geotrace *trace, uint32_t seat, uint64_t request, const void *bytes,
                                         size_t size)
{
    flockfile(trace->out);
    fprintf(trace->out, "%% %lu deliver %llu bytes ", (unsigned long)seat, (unsigned long long)request);
    geotrace_runs(trace->out, (const unsigned char *)bytes, size);
    putc('\n', trace->out);
    return geotrace_ended(trace);
}

/* A request that is done goes up to who asked for it. */
static inline int geotrace_up(struct geotrace *trace, uint32_t seat, uint64_t request)
{
    return geotrace_numbered(trace, seat, "up", request);
}

/* What your program reported: for each line of the script its answer, and then the mesh. Call it last. */
static inline int geotrace_report(struct geotrace *trace, const char *report)
{
    flockfile(trace->out);
    fputs("% report\n", trace->out);
    fputs(report, trace->out);
    fflush(trace->out);
    return geotrace_ended(trace);
}

#endif
