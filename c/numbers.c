/*
 * numbers: the version of the library, and the names of its numbers.
 */
#include "tazbrev.h"

#include <errno.h>

static const struct number {
    int host;
    const char *name, *text;
} numbers[] = {
#define NUMBER(number, host, text) [number - TZB_ROOM + 1] = {host, #number, text}
    {EINVAL, "?", "no number of this library"},
    NUMBER(TZB_OK, 0, "well"),
    NUMBER(TZB_ENOENT, ENOENT, "there is none of this name"),
    NUMBER(TZB_EEXIST, EEXIST, "the name is in use"),
    NUMBER(TZB_EBADF, EBADF, "there is no such handle"),
    NUMBER(TZB_ENXIO, ENXIO, "it has gone, or is going"),
    NUMBER(TZB_EPERM, EPERM, "the access counts forbid it"),
    NUMBER(TZB_EOVERFLOW, EOVERFLOW, "a count would pass its limit"),
    NUMBER(TZB_EBUSY, EBUSY, "it is in use"),
    NUMBER(TZB_EINVAL, EINVAL, "an offset, a length or a size doesn't fit"),
    NUMBER(TZB_EIO, EIO, "a range past the end, or a disk that failed"),
    NUMBER(TZB_ELOOP, ELOOP, "a geom would reach itself"),
    NUMBER(TZB_EDEEP, EINVAL, "a geom would have too great a rank"),
    NUMBER(TZB_NO_MEMORY, ENOMEM, "memory was wanting"),
    NUMBER(TZB_CLOSED, EBADF, "the mesh isn't open"),
    NUMBER(TZB_OPEN, EBUSY, "the mesh is open already"),
    NUMBER(TZB_WRONG, EINVAL, "an argument doesn't have its form"),
    NUMBER(TZB_UNFIT, EINVAL, "the mesh isn't so that this can be done"),
    NUMBER(TZB_ROOM, ERANGE, "there is too little room"),
};

static const struct number *found(int32_t number)
{
    return &numbers[number < TZB_ROOM || number > TZB_EDEEP ? 0 : number - TZB_ROOM + 1];
}

const char *tzb_version(void)
{
    return TZB_VERSION;
}

const char *tzb_error_name(int32_t number)
{
    return found(number)->name;
}

const char *tzb_strerror(int32_t number)
{
    return found(number)->text;
}

int tzb_errno(int32_t number)
{
    return found(number)->host;
}
