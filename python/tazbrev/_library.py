"""The calls of libtazbrev, as `tazbrev.h` declares them.

`Core` has a method for each call. It checks what ctypes would cut off without a word (numbers that are too large or
negative), and turns what the library refuses into an exception. It keeps no state but the handle and its buffers.
"""
from __future__ import annotations

import ctypes
import os
import pathlib
import threading
import warnings
from typing import Any, List, Optional, Sequence, Tuple

from . import errors, trace

NAME = 'libtazbrev.so.0'
# What is due, what a disk is asked for, and the most bytes of a request.
IDLE, ASK, REPLY, MOVED, CHANGED = range(5)
READ, WRITE, DELETE, FLUSH = range(1, 5)
MOST_BYTES = 32768
# What calls answer.
OK, REPLIED = 0, 1
ROOM = -6


class _Handle(ctypes.Structure):
    _fields_ = [('is_open', ctypes.c_bool), ('held', ctypes.c_void_p)]


class Size(ctypes.Structure):
    """How large a disk is."""
    _fields_ = [('sectors', ctypes.c_uint64), ('sector', ctypes.c_uint32), ('spare', ctypes.c_uint32)]


class Event(ctypes.Structure):
    """What is due."""
    kind: int
    op: int
    disk: int
    count: int
    bio: int
    first: int
    token: int
    len: int
    error: int
    generation: int
    _fields_ = [
        ('kind', ctypes.c_uint32), ('op', ctypes.c_uint32), ('disk', ctypes.c_uint32), ('count', ctypes.c_uint32),
        ('bio', ctypes.c_uint64), ('first', ctypes.c_uint64), ('token', ctypes.c_uint64), ('len', ctypes.c_uint64),
        ('error', ctypes.c_uint32), ('spare', ctypes.c_uint32), ('generation', ctypes.c_uint64),
    ]


class Step(ctypes.Structure):
    """A step that is due."""
    kind: int
    place: int
    bio: int
    _fields_ = [('kind', ctypes.c_uint32), ('place', ctypes.c_uint32), ('bio', ctypes.c_uint64)]


_I, _L, _Z, _B, _P = ctypes.c_uint32, ctypes.c_uint64, ctypes.c_size_t, ctypes.c_char_p, ctypes.c_void_p
_NAMED = [_P, _I, _B, _Z]
# The arguments of each call; the answer is an int32_t, where `_COUNTS` doesn't say otherwise.
_CALLS = {
    'open': [_P, _B, _Z, _P, _Z, _P],
    'close': [_P],
    'open_handle': [*_NAMED, _B, _Z, _I, _I, _I, _L, _P],
    'close_handle': [*_NAMED, _L, _P],
    'submit_read': [*_NAMED, _L, _L, _L, _P],
    'submit_write': [*_NAMED, _L, _B, _Z, _L, _P],
    'submit_delete': [*_NAMED, _L, _L, _L, _P],
    'submit_flush': [*_NAMED, _L, _P],
    'insert': [*_NAMED, _L, _P],
    'pull': [*_NAMED, _L, _P],
    'command': [_P, _B, _Z, _L, _P],
    'list': [_P, _P, _Z, _P],
    'due': [_P, _P],
    'next': [_P, _P, _P, _Z],
    'answer_bytes': [_P, _L, _B, _Z],
    'answer_done': [_P, _L],
    'answer_failed': [_P, _L, _I],
    'waiting': [_P],
    'steps': [_P],
    'generation': [_P],
}
_RESULTS = {'close': None, 'waiting': ctypes.c_uint64, 'steps': ctypes.c_uint64, 'generation': ctypes.c_uint64}


def path() -> str:
    """Where the library is looked for: `TAZBREV_LIBRARY`, beside this package, else by the system's loader."""
    named = os.environ.get('TAZBREV_LIBRARY')
    if named:
        return named
    beside = pathlib.Path(__file__).resolve().parent / NAME
    return str(beside) if beside.exists() else NAME


class _Library:
    """The calls, each with its types. A call keeps the interpreter's lock: none of them waits."""

    def __init__(self, name: str) -> None:
        try:
            library = ctypes.PyDLL(name)
        except OSError as fault:
            raise errors.LibraryError(f'{name} cannot be loaded: {fault}') from fault
        for call, types in _CALLS.items():
            function = getattr(library, f'tzb_core_{call}', None)
            if function is not None:
                function.argtypes, function.restype = types, _RESULTS.get(call, ctypes.c_int32)
                setattr(self, call, function)
        self._name = name

    def __getattr__(self, call: str) -> Any:
        raise errors.LibraryError(f'{self._name} has no call tzb_core_{call}')


_loaded: List[_Library] = []


def library() -> _Library:
    """The library, which is loaded once."""
    if not _loaded:
        _loaded.append(_Library(path()))
    return _loaded[0]


def _number(what: str, value: int, bits: int) -> int:
    """A number that fits its type. ctypes would take it modulo 2^bits."""
    if not isinstance(value, int):
        raise TypeError(f'{what} is {value!r}, which is no whole number')
    if value >> bits:
        raise errors.FormError(f'{what} is {value}, which is not from 0 to 2^{bits} - 1')
    return value


def _refusal(code: int) -> Exception:
    kind = errors.CALL_ERRORS.get(code)
    return kind(kind.about) if kind else errors.CallError(f'the library answers {code}')


class Core:
    """A handle of the library. Only the thread that made it may call it, or the one that adopted it last."""

    def __init__(self) -> None:
        self._calls = library()
        self._handle = _Handle()
        self._at = ctypes.addressof(self._handle)
        self.event = Event()
        self._event_at = ctypes.addressof(self.event)
        self._step = Step()
        self._step_at = ctypes.addressof(self._step)
        self._room = ctypes.create_string_buffer(MOST_BYTES)
        self._room_at = ctypes.addressof(self._room)
        self._error = ctypes.c_uint32()
        self._error_at = ctypes.addressof(self._error)
        self._thread = threading.get_ident()
        # These two are called at each step.
        self._next, self._ident = self._calls.next, threading.get_ident

    def __del__(self) -> None:
        if not hasattr(self, '_next') or not self._handle.is_open:
            return
        if self._ident() == self._thread:
            self._calls.close(self._at)
        else:
            warnings.warn('a mesh was let go in another thread than its own, so its memory stays', ResourceWarning)

    def adopt(self) -> None:
        """From now on this thread alone may call it. The one that did so is done with it."""
        self._thread = self._ident()

    def own(self) -> int:
        """The handle's address, for the thread that made it."""
        if self._ident() != self._thread:
            raise errors.ThreadError('a mesh is called from another thread than its own')
        return self._at

    # Opening, closing.

    def open(self, header: bytes, sizes: Sequence[Tuple[int, int]]) -> None:
        """Begins a mesh with a header, and for each disk of it how many sectors it has, and of how many bytes."""
        rows = (Size * max(len(sizes), 1))()
        for row, (sectors, sector) in zip(rows, sizes):
            row.sectors, row.sector = _number('sectors', sectors, 64), _number('sector', sector, 32)
        fault = ctypes.c_uint32()
        code = self._calls.open(self.own(), header, len(header), ctypes.addressof(rows), len(sizes),
                                ctypes.addressof(fault))
        if code == errors.WRONG:
            raise errors.HeaderError(fault.value)
        if code:
            raise _refusal(code)

    def close(self) -> None:
        self._calls.close(self.own())

    @property
    def is_open(self) -> bool:
        return bool(self._handle.is_open)

    # Commands. Each gives None where it is on its way, else the number of its error, 0 for none.

    def _given(self, code: int) -> Optional[int]:
        if code == OK:
            return None
        if code == REPLIED:
            return self._error.value
        raise _refusal(code)

    def open_handle(self, actor: int, handle: bytes, provider: bytes, r: int, w: int, e: int,
                    token: int) -> Optional[int]:
        counts = _number('r', r, 32), _number('w', w, 32), _number('e', e, 32)
        return self._given(self._calls.open_handle(
            self.own(), _number('actor', actor, 32), handle, len(handle), provider, len(provider), *counts,
            _number('token', token, 64), self._error_at))

    def close_handle(self, actor: int, handle: bytes, token: int) -> Optional[int]:
        return self._named(self._calls.close_handle, actor, handle, token)

    def submit_read(self, actor: int, handle: bytes, offset: int, length: int, token: int) -> Optional[int]:
        if (actor >> 32) | (offset >> 64) | (length >> 64) | (token >> 64):
            self._fits(actor, token, offset, length)
        return self._given(self._calls.submit_read(self.own(), actor, handle, len(handle), offset, length, token,
                                                   self._error_at))

    def submit_write(self, actor: int, handle: bytes, offset: int, data: bytes, token: int) -> Optional[int]:
        if (actor >> 32) | (offset >> 64) | (token >> 64):
            self._fits(actor, token, offset)
        return self._given(self._calls.submit_write(self.own(), actor, handle, len(handle), offset, data, len(data),
                                                    token, self._error_at))

    def submit_delete(self, actor: int, handle: bytes, offset: int, length: int, token: int) -> Optional[int]:
        self._fits(actor, token, offset, length)
        return self._given(self._calls.submit_delete(self.own(), actor, handle, len(handle), offset, length, token,
                                                     self._error_at))

    def submit_flush(self, actor: int, handle: bytes, token: int) -> Optional[int]:
        return self._named(self._calls.submit_flush, actor, handle, token)

    def insert(self, actor: int, disk: bytes, token: int) -> Optional[int]:
        return self._named(self._calls.insert, actor, disk, token)

    def pull(self, actor: int, disk: bytes, token: int) -> Optional[int]:
        return self._named(self._calls.pull, actor, disk, token)

    def command(self, script: bytes, token: int) -> Optional[int]:
        """Gives the one command of a script, as of its line's actor."""
        return self._given(self._calls.command(self.own(), script, len(script), _number('token', token, 64),
                                               self._error_at))

    def _named(self, call: Any, actor: int, name: bytes, token: int) -> Optional[int]:
        self._fits(actor, token)
        return self._given(call(self.own(), actor, name, len(name), token, self._error_at))

    @staticmethod
    def _fits(actor: int, token: int, *lengths: int) -> None:
        _number('actor', actor, 32)
        _number('token', token, 64)
        for it in lengths:
            _number('an offset or a length', it, 64)

    # Steps and answers.

    def due(self) -> Optional[str]:
        """The step that `next` makes then, as a trace has it. None where none is due."""
        code = self._calls.due(self.own(), self._step_at)
        if code:
            raise _refusal(code)
        return trace.step_text(self._step.kind, self._step.place, self._step.bio)

    def next(self) -> int:
        """Makes the step that is due. Gives the kind of what is due then; `event` has the rest of it."""
        code = self._next(self.own(), self._event_at, self._room_at, MOST_BYTES)
        if code:
            raise _refusal(code)
        return self.event.kind

    def brought(self) -> bytes:
        """What the event brought: bytes that a disk is to write, or that a request read."""
        return ctypes.string_at(self._room_at, self.event.len)

    def answer_bytes(self, bio: int, data: bytes) -> None:
        self._answered(self._calls.answer_bytes(self.own(), _number('bio', bio, 64), data, len(data)))

    def answer_done(self, bio: int) -> None:
        self._answered(self._calls.answer_done(self.own(), _number('bio', bio, 64)))

    def answer_failed(self, bio: int, done: int = 0) -> None:
        self._answered(self._calls.answer_failed(self.own(), _number('bio', bio, 64), _number('done', done, 32)))

    @staticmethod
    def _answered(code: int) -> None:
        if code:
            raise _refusal(code)

    # What there is.

    def text(self) -> bytes:
        """The mesh as text, as `geomrun` prints it at its end."""
        room, need = ctypes.create_string_buffer(4096), ctypes.c_uint64()
        while True:
            code = self._calls.list(self.own(), ctypes.addressof(room), len(room), ctypes.addressof(need))
            if code == OK:
                return room.raw[:need.value]
            if code != ROOM:
                raise _refusal(code)
            room = ctypes.create_string_buffer(max(need.value, 1))

    def waiting(self) -> int:
        return int(self._calls.waiting(self.own()))

    def steps(self) -> int:
        return int(self._calls.steps(self.own()))

    def generation(self) -> int:
        return int(self._calls.generation(self.own()))
