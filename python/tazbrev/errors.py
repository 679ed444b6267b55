"""What is raised.

`GeomError` is what the mesh replies to a command or a request: one class for each errno. `CallError` is a call that the
library doesn't take. After each of them nothing has changed, but for a request whose disk failed.
"""
from __future__ import annotations

import errno
from typing import ClassVar, Dict, Optional, Type


class TazbrevError(Exception):
    """Whatever this package raises by itself."""


class GeomError(TazbrevError):
    """The mesh replies with an error."""

    #: The number of the host, or None where it has none.
    errno: ClassVar[Optional[int]] = None
    #: The name in the reports of `geomrun`.
    name: ClassVar[str] = ''
    #: The number of `tazbrev.h`.
    number: ClassVar[int] = 0
    about: ClassVar[str] = ''

    def __init__(self, text: str = '') -> None:
        super().__init__(f'{self.name}: {text or self.about}')


class NotFoundError(GeomError):
    errno, name, number = errno.ENOENT, 'ENOENT', 1
    about = 'there is none of this name'


class NameInUseError(GeomError):
    errno, name, number = errno.EEXIST, 'EEXIST', 2
    about = 'the name is in use'


class HandleError(GeomError):
    errno, name, number = errno.EBADF, 'EBADF', 3
    about = 'there is no such handle'


class GoneError(GeomError):
    errno, name, number = errno.ENXIO, 'ENXIO', 4
    about = "the provider carries an error, the handle is dead, or the disk of a pull doesn't stand"


class AccessError(GeomError):
    errno, name, number = errno.EPERM, 'EPERM', 5
    about = "the access counts forbid it, or the handle wasn't opened for it"


class CountError(GeomError):
    errno, name, number = errno.EOVERFLOW, 'EOVERFLOW', 6
    about = 'a count would pass its limit'


class BusyError(GeomError):
    errno, name, number = errno.EBUSY, 'EBUSY', 7
    about = 'it is in use'


class RangeError(GeomError):
    errno, name, number = errno.EINVAL, 'EINVAL', 8
    about = "an offset, a length or a size doesn't fit"


class TransferError(GeomError):
    errno, name, number = errno.EIO, 'EIO', 9
    about = 'a range past the end, or a disk that failed'


class LoopError(GeomError):
    errno, name, number = errno.ELOOP, 'ELOOP', 10
    about = 'a geom would reach itself'


class DepthError(GeomError):
    name, number = 'EDEEP', 11
    about = 'a geom would have too great a rank'


GEOM_ERRORS: Dict[int, Type[GeomError]] = {it.number: it for it in (
    NotFoundError, NameInUseError, HandleError, GoneError, AccessError, CountError, BusyError, RangeError,
    TransferError, LoopError, DepthError)}


class CallError(TazbrevError):
    """The library doesn't take a call. Nothing has changed."""

    about: ClassVar[str] = "the library doesn't take the call"


class LibraryError(CallError):
    """There is no library, or it lacks a call."""


class MemoryWantingError(CallError, MemoryError):
    """Memory was wanting. The same call may be made again."""

    about = 'memory was wanting'


class ClosedError(CallError):
    """The mesh is closed."""

    about = 'the mesh is closed'


class OpenError(CallError):
    """The mesh is open already."""

    about = 'the mesh is open already'


class FormError(CallError, ValueError):
    """A name, a number, a text or data doesn't have its form."""

    about = "a name, a number, a text or data doesn't have its form"


class HeaderError(FormError):
    """A header isn't one, or a disk doesn't have the size that the header says."""

    def __init__(self, line: int, text: str = '') -> None:
        #: The first line against the grammar, from 1 on; 0 where a size doesn't fit.
        self.line = line
        if not text:
            text = "is against the grammar" if line else "the size of a disk doesn't fit"
        super().__init__(f'line {line}: {text}' if line else text)


class UnfitError(CallError):
    """The mesh isn't so that this can be done: there is no such actor, or the answer isn't one to what was asked."""

    about = "the mesh isn't so that this can be done"


class RoomError(CallError):
    """There is too little room for bytes."""

    about = 'there is too little room for bytes'


class ThreadError(CallError):
    """A mesh is called from another thread than its own: the one that made it, or that adopted it last."""


class StuckError(CallError):
    """A request waits, and no disk has an answer to give."""


WRONG = -4
CALL_ERRORS: Dict[int, Type[CallError]] = {
    -1: MemoryWantingError, -2: ClosedError, -3: OpenError, WRONG: FormError, -5: UnfitError, -6: RoomError}


def reply(number: int) -> Optional[GeomError]:
    """The error that a reply carries; None for 0."""
    if number == 0:
        return None
    kind = GEOM_ERRORS.get(number)
    return kind() if kind else GeomError(f'error {number}')


class DiskError(Exception):
    """What a disk raises that failed after so many sectors."""

    def __init__(self, text: str = 'the disk failed', done: int = 0) -> None:
        super().__init__(text)
        self.done = done
