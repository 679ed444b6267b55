"""A mesh, its handles and its requests."""
from __future__ import annotations

import logging
import queue
import time
from types import TracebackType
from typing import (Any, Callable, Dict, Generic, Iterable, Iterator, List, Mapping, NamedTuple, Optional, Sequence,
                    Type, TypeVar, Union)

from . import errors, rows
from ._library import ASK, DELETE, FLUSH, IDLE, READ, REPLY, WRITE, Core
from .disks import Data, Disk, MemoryDisk
from .headers import Header
from .trace import Trace, runs

Disks = Union[Sequence[Disk], Mapping[str, Disk]]
Value = TypeVar('Value', bytes, None)
_log = logging.getLogger('tazbrev')
_log.addHandler(logging.NullHandler())
#: The most bytes of a memory disk that a header makes, as for `geomrun`.
MOST_RAM = 67108864


class Request(Generic[Value]):
    """What was asked of the mesh: its reply comes while the mesh goes on, once."""

    __slots__ = ('_mesh', 'token', 'handle', '_is_done', '_value', '_error', '_callbacks')

    def __init__(self, mesh: 'Mesh', token: int, handle: 'Optional[Handle]' = None) -> None:
        self._mesh, self.token, self.handle = mesh, token, handle
        self._is_done = False
        self._value: Any = None
        self._error: Optional[Exception] = None
        self._callbacks: Optional[List[Callable[['Request[Value]'], None]]] = None

    def done(self) -> bool:
        """Whether the reply is there."""
        return self._is_done

    def result(self, timeout: Optional[float] = None) -> Value:
        """The bytes of a read, else None. The mesh goes on until the reply is there; an error is raised."""
        if not self._is_done:
            self._mesh._wait_for(self, timeout)
        if self._error is not None:
            raise self._error
        return self._value  # type: ignore[no-any-return]

    def exception(self, timeout: Optional[float] = None) -> Optional[Exception]:
        """The error of the reply, or None."""
        if not self._is_done:
            self._mesh._wait_for(self, timeout)
        return self._error

    def add_done_callback(self, call: Callable[['Request[Value]'], None]) -> None:
        """Calls this once the reply is there, in the thread of the mesh; at once if it is."""
        if self._is_done:
            call(self)
        else:
            self._callbacks = [*(self._callbacks or ()), call]

    def _settle(self, value: Any, error: Optional[Exception]) -> None:
        self._value, self._error, self._is_done = value, error, True
        calls, self._callbacks = self._callbacks, None
        for call in calls or ():
            try:
                call(self)
            except Exception:  # the mesh goes on for its other requests
                _log.exception('a callback of %r failed', self)

    def __repr__(self) -> str:
        state = 'waits' if not self._is_done else repr(self._error) if self._error else 'done'
        return f'<Request {self.token}: {state}>'


class _Asked(NamedTuple):
    """What a disk was asked."""
    bio: int
    disk: int
    op: int
    sectors: int


class Handle:
    """A handle of an actor at a provider. It is closed at the end of a `with`."""

    def __init__(self, mesh: 'Mesh', actor: str, name: str, provider: str) -> None:
        self.mesh, self.actor, self.name, self.provider = mesh, actor, name, provider
        self._actor, self._name = mesh._actor(actor), _bytes_of(name)

    def submit_read(self, offset: int, length: int) -> 'Request[bytes]':
        """Whole sectors, 32,768 bytes at most."""
        mesh = self.mesh
        return mesh._given(mesh._core.submit_read(self._actor, self._name, offset, length, mesh._token), self.actor,
                           ('read', self.name, offset, length), self)

    def submit_write(self, offset: int, data: Data) -> 'Request[None]':
        """Whole sectors, 32,768 bytes at most. The data may be changed afterwards."""
        mesh = self.mesh
        data = data if type(data) is bytes else bytes(memoryview(data))
        return mesh._given(mesh._core.submit_write(self._actor, self._name, offset, data, mesh._token), self.actor,
                           ('write', self.name, offset, data), self)

    def submit_delete(self, offset: int, length: int) -> 'Request[None]':
        """The bytes read as zeros then."""
        mesh = self.mesh
        return mesh._given(mesh._core.submit_delete(self._actor, self._name, offset, length, mesh._token), self.actor,
                           ('delete', self.name, offset, length), self)

    def submit_flush(self) -> 'Request[None]':
        """The disks keep what was written."""
        mesh = self.mesh
        return mesh._given(mesh._core.submit_flush(self._actor, self._name, mesh._token), self.actor,
                           ('flush', self.name), self)

    def read(self, offset: int, length: int) -> bytes:
        return self.submit_read(offset, length).result()

    def write(self, offset: int, data: Data) -> None:
        self.submit_write(offset, data).result()

    def delete(self, offset: int, length: int) -> None:
        self.submit_delete(offset, length).result()

    def flush(self) -> None:
        self.submit_flush().result()

    def close(self) -> None:
        """Closes the handle. BusyError while one of its requests is out: wait for them first."""
        mesh = self.mesh
        mesh._now(mesh._given(mesh._core.close_handle(self._actor, self._name, mesh._token), self.actor,
                              ('close', self.name)))

    def __enter__(self) -> 'Handle':
        return self

    def __exit__(self, kind: Optional[Type[BaseException]], fault: Optional[BaseException],
                 trace: Optional[TracebackType]) -> None:
        if self.mesh.is_open:
            for request in self._out():
                self.mesh.wait(request)
            self.close()

    def _out(self) -> 'List[Request[Any]]':
        """Its requests that are out."""
        return [it for it in self.mesh._requests.values() if it.handle is self]

    def __repr__(self) -> str:
        return f'<Handle {self.name} of {self.actor} at {self.provider}>'


class Mesh:
    """A mesh over disks. It makes steps while it is called, in the thread that made it, and has no thread of its own.

    `disks` are those of the header's `disk` lines, in their order or by their names. For a `ram` line a `MemoryDisk` is
    made, unless `disks` has one of its name. A `trace` is told of each step.
    """

    def __init__(self, header: Union[str, bytes], disks: Disks = (), trace: Optional[Trace] = None) -> None:
        self._header = Header(header)
        self._trace = trace
        self._disks = _placed(self._header, disks)
        self._requests: Dict[int, Request[Any]] = {}
        self._token = 1
        # What disks were asked and haven't answered, and the answers that came later.
        self._out: Dict[int, _Asked] = {}
        self._late: 'queue.SimpleQueue[Any]' = queue.SimpleQueue()
        #: Called when a late answer has come, in the thread that it comes from.
        self.on_late_answer: Callable[[], object] = lambda: None
        #: The exception by which a disk failed last, with the disk's name.
        self.last_fault: Optional[Exception] = None
        self._core = Core()
        self._core.open(self._header.text, [(it.sectors, it.sector) for it in self._disks])
        if trace is not None:
            trace._begin(self._header.text, [disk.sectors for line, disk in zip(self._header.disks, self._disks)
                                             if line.sectors is None])
        self.run()

    # What there is.

    @property
    def is_open(self) -> bool:
        return self._core.is_open

    @property
    def actors(self) -> List[str]:
        return list(self._header.actors)

    @property
    def disks(self) -> Dict[str, Disk]:
        """The disks of the header by their names."""
        return {line.name: disk for line, disk in zip(self._header.disks, self._disks)}

    @property
    def waiting(self) -> int:
        """How many requests wait for their reply."""
        return self._core.waiting()

    @property
    def steps(self) -> int:
        """How many steps were made."""
        return self._core.steps()

    @property
    def generation(self) -> int:
        """How many steps may have changed what `list` shows. While it stays, nothing has changed there."""
        return self._core.generation()

    def text(self) -> str:
        """The mesh as `geomrun` prints it at its end."""
        self.run()
        return self._core.text().decode('ascii')

    def list(self) -> List[rows.Geom]:
        """The geoms, each with its providers and consumers."""
        return rows.parse(self.text())

    def provider(self, name: str) -> rows.Provider:
        """The provider of this name, preferably one without an error. NotFoundError where there is none."""
        found = [it for geom in self.list() for it in geom.providers if it.name == name]
        if not found:
            raise errors.NotFoundError(f'there is no provider {name}')
        return next((it for it in found if it.error is None), found[-1])

    # Commands. Each is made at once, and the mesh then goes on as far as it can.

    def open(self, actor: str, name: str, provider: str, r: int = 0, w: int = 0, e: int = 0) -> Handle:
        """Opens a provider under a name of the actor's, with so many rights, 0 to 9 each and not all 0."""
        handle = Handle(self, actor, name, provider)
        self._now(self._given(self._core.open_handle(handle._actor, handle._name, _bytes_of(provider), r, w, e,
                                                     self._token), actor, ('open', name, provider, f'r{r}w{w}e{e}')))
        return handle

    def insert(self, disk: str, actor: Optional[str] = None) -> None:
        """Lets a disk of the header stand that comes `later`, or that was pulled."""
        self._now(self._given(self._core.insert(self._actor(actor), _bytes_of(disk), self._token), actor,
                              ('insert', disk)))

    def pull(self, disk: str, actor: Optional[str] = None) -> None:
        """Takes a disk away: its geom withers, and is let go once nothing uses it."""
        self._now(self._given(self._core.pull(self._actor(actor), _bytes_of(disk), self._token), actor,
                              ('pull', disk)))

    def submit_command(self, line: str) -> 'Request[Any]':
        """Gives a line of a script, with its actor in front. UnfitError for a `sync` or `settle` that has to wait."""
        actor, _, command = line.partition(' ')
        return self._given(self._core.command(self._header.text + _bytes_of(line) + b'\n', self._token), actor,
                           (command,))

    def command(self, line: str) -> Optional[bytes]:
        """Gives a line of a script, waits for its reply, and gives the bytes of a read."""
        self.run()
        if line.split(' ')[1:] in (['sync'], ['settle']):
            self.wait()
        got: Optional[bytes] = self._now(self.submit_command(line))
        return got

    def _actor(self, name: Optional[str]) -> int:
        """The place of an actor; None is the first one."""
        actors = self._header.actors
        if name is None and actors:
            return 0
        if name not in actors:
            raise errors.UnfitError(f'the header has no actor {name}')
        return actors[name]

    def _given(self, error: Optional[int], actor: Optional[str], words: Sequence[object],
               handle: Optional[Handle] = None) -> 'Request[Any]':
        """The request that was just given with the next token; `error` is None where it is on its way."""
        request: 'Request[Any]' = Request(self, self._token, handle)
        self._token += 1
        if self._trace is not None:
            self._tell_given(self._trace, request.token, error, actor, words)
        if error is None:
            self._requests[request.token] = request
        else:
            request._settle(None, errors.reply(error))
        return request

    def _tell_given(self, trace: Trace, token: int, error: Optional[int], actor: Optional[str],
                    words: Sequence[object]) -> None:
        name = self.actors[0] if actor is None else actor
        trace._given(token, (name, self._actor(name)), words)
        if error is not None:
            trace._replied(token, None, errors.reply(error), self._core.text().decode() if words == ('mesh',) else '')

    def _now(self, request: 'Request[Any]') -> Any:
        """The result of a command, after which the mesh goes on as far as it can."""
        try:
            return request.result()
        finally:
            try:
                self.run()
            except errors.MemoryWantingError:  # the command is done; the next call goes on where this one stopped
                pass

    def adopt(self) -> None:
        """Makes this thread the mesh's own. The thread that it had has to be done with it."""
        self._core.adopt()

    # Going on.

    def run(self) -> None:
        """Makes steps until nothing is due, and takes what answers came later. It waits for nothing."""
        while self._turn() or self._take_late(None):
            pass

    def wait(self, *requests: 'Request[Any]', timeout: Optional[float] = None) -> None:
        """Goes on until these requests are replied to, or all that are out. It raises none of their errors."""
        end = None if timeout is None else time.monotonic() + timeout
        for request in requests or [*self._requests.values()]:
            if not request.done():
                self._wait_for(request, None if end is None else max(0.0, end - time.monotonic()))

    def as_completed(self, requests: Iterable['Request[Any]']) -> Iterator['Request[Any]']:
        """These requests, each once it is replied to."""
        left = list(requests)
        while left:
            ready = [it for it in left if it.done()]
            left = [it for it in left if not it.done()]
            yield from ready
            if not ready and not self._turn():
                self._await_disk(None)

    def _wait_for(self, request: 'Request[Any]', timeout: Optional[float]) -> None:
        end = None if timeout is None else time.monotonic() + timeout
        while not request._is_done:
            if not self._turn() and not request._is_done:
                self._await_disk(end)

    def _await_disk(self, end: Optional[float]) -> None:
        """Waits until a disk has a late answer, and gives it."""
        if not self._out:
            raise errors.StuckError('nothing is due, and no disk has an answer to give')
        left = None if end is None else end - time.monotonic()
        if left is not None and left <= 0 or not self._take_late(left, waits=True):
            raise TimeoutError('the reply has not come yet')

    def _turn(self) -> bool:
        """Makes one step. False where nothing is due."""
        core, trace = self._core, self._trace
        step = None if trace is None else core.due()
        kind = core.next()
        if trace is not None and step is not None:
            trace._made(step)
        if kind == ASK:
            self._ask()
        elif kind == REPLY:
            event = core.event
            request = self._requests.pop(event.token)
            value, error = core.brought() if event.len else None, errors.reply(event.error)
            if trace is not None:
                trace._replied(event.token, value, error)
            request._settle(value, error)
        return kind != IDLE

    # Disks.

    def _ask(self) -> None:
        """Asks a disk, and gives its answer, if it has one."""
        event = self._core.event
        asked = _Asked(event.bio, event.disk, event.op, event.count)
        disk, first = self._disks[asked.disk], event.first
        self._out[asked.bio] = asked
        try:
            if asked.op == READ:
                got = disk.read(first, asked.sectors)
            elif asked.op == WRITE:
                got = disk.write(first, self._core.brought())
            elif asked.op == DELETE:
                got = disk.delete(first, asked.sectors)
            else:
                got = disk.flush()
        except Exception as fault:
            self._answer(asked, None, fault)
        except BaseException as fault:
            self._answer(asked, None, fault)
            raise
        else:
            if type(got) is not bytes and hasattr(got, 'add_done_callback'):
                got.add_done_callback(lambda it: self._came(asked, it))
            else:
                self._answer(asked, got, None)

    def _came(self, asked: _Asked, later: Any) -> None:
        """A late answer came, in whatever thread."""
        self._late.put((asked, later))
        self.on_late_answer()

    def _take_late(self, timeout: Optional[float], waits: bool = False) -> bool:
        """Gives a late answer, if one has come. False where none has."""
        try:
            asked, later = self._late.get(block=waits, timeout=timeout)
        except queue.Empty:
            return False
        if isinstance(later, tuple):
            self._answer(asked, *later)
            return True
        if later.cancelled():
            self._answer(asked, None, errors.DiskError('the answer was cancelled'))
            return True
        fault = later.exception()
        self._answer(asked, None if fault else later.result(), fault)
        return True

    def _answer(self, asked: _Asked, got: Any, fault: Optional[BaseException]) -> None:
        """Gives a disk's answer. One that isn't an answer to what was asked is a failure."""
        if fault is None:
            try:
                data = _checked(asked, got, self._disks[asked.disk].sector)
            except errors.DiskError as wrong:
                fault = wrong
        try:
            if fault is not None:
                self._failed(asked, fault)
            elif asked.op == READ:
                self._core.answer_bytes(asked.bio, data)
                self._tell_delivered(asked.bio, 'bytes', data)
            else:
                self._core.answer_done(asked.bio)
                self._tell_delivered(asked.bio, 'done')
        except errors.MemoryWantingError:
            self._late.put((asked, (got, fault)))
            raise
        del self._out[asked.bio]

    def _failed(self, asked: _Asked, fault: BaseException) -> None:
        name = self._header.disks[asked.disk].name
        self.last_fault = fault if isinstance(fault, Exception) else None
        _log.info('disk %s failed: %r', name, fault)
        done = getattr(fault, 'done', 0) if asked.op in (WRITE, DELETE) else 0
        if not isinstance(done, int) or not 0 <= done <= asked.sectors:
            _log.warning('disk %s failed after %r of %d sectors, which is taken as 0', name, done, asked.sectors)
            done = 0
        self._core.answer_failed(asked.bio, done)
        self._tell_delivered(asked.bio, f'failed {done}')

    def _tell_delivered(self, bio: int, answer: str, data: bytes = b'') -> None:
        if self._trace is not None:
            self._trace._delivered(bio, f'{answer} {runs(data)}' if data else answer)

    # The end.

    def close(self) -> None:
        """Lets the mesh go. Requests that wait get no reply: their result is a ClosedError. The disks stay yours."""
        if not self._core.is_open:
            return
        self._core.close()
        waiting, self._requests = self._requests, {}
        self._out.clear()
        for request in waiting.values():
            request._settle(None, errors.ClosedError('the mesh was closed before the reply'))

    def __enter__(self) -> 'Mesh':
        return self

    def __exit__(self, kind: Optional[Type[BaseException]], fault: Optional[BaseException],
                 trace: Optional[TracebackType]) -> None:
        self.close()


def _bytes_of(text: str) -> bytes:
    return text.encode('utf-8', 'surrogateescape')


def _checked(asked: _Asked, got: Any, sector: int) -> bytes:
    """What a disk gave, if it is an answer to what it was asked."""
    if asked.op != READ:
        if got is not None:
            raise errors.DiskError(f'a disk gave {type(got).__name__} for {_OPS[asked.op]}, not None')
        return b''
    if not isinstance(got, (bytes, bytearray, memoryview)):
        raise errors.DiskError(f'a disk gave {type(got).__name__} for a read, not bytes')
    data = got if type(got) is bytes else bytes(got)
    if len(data) != asked.sectors * sector:
        raise errors.DiskError(f'a disk gave {len(data)} bytes for a read of {asked.sectors * sector}')
    return data


_OPS = {READ: 'a read', WRITE: 'a write', DELETE: 'a delete', FLUSH: 'a flush'}


def _placed(header: Header, disks: Disks) -> List[Disk]:
    """The disks in the order of the header."""
    named: Dict[str, Disk] = dict(disks) if isinstance(disks, Mapping) else {}
    listed: List[Disk] = [] if isinstance(disks, Mapping) else list(disks)
    placed: List[Disk] = []
    for line in header.disks:
        if line.name in named:
            placed.append(named.pop(line.name))
        elif line.sectors is not None:
            if line.sectors * line.sector > MOST_RAM:
                raise errors.HeaderError(line.line)
            placed.append(MemoryDisk(line.sectors, line.sector))
        elif listed:
            placed.append(listed.pop(0))
        else:
            raise errors.HeaderError(line.line, f'there is no disk for {line.name}')
    if named or listed:
        raise errors.HeaderError(0, f'the header has no line for {len(named) + len(listed)} of the disks')
    return placed
