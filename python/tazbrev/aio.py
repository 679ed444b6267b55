"""A mesh for asyncio: the same calls, each awaited. A disk's methods may be coroutines."""
from __future__ import annotations

import asyncio
import inspect
from types import TracebackType
from typing import Any, Dict, List, Optional, Type, TypeVar, Union

from . import rows
from .disks import Data, Disk
from .headers import Header
from .mesh import Disks, Handle, Mesh, Request, _placed
from .trace import Trace

Value = TypeVar('Value', bytes, None)


class _Awaited:
    """A disk whose answers may be awaitable: each is then made a task of the loop."""

    def __init__(self, disk: Disk) -> None:
        self.disk, self.sectors, self.sector = disk, disk.sectors, disk.sector

    @staticmethod
    def _later(got: Any) -> Any:
        return asyncio.ensure_future(got) if inspect.isawaitable(got) else got

    def read(self, first: int, count: int) -> Any:
        return self._later(self.disk.read(first, count))

    def write(self, first: int, data: bytes) -> Any:
        return self._later(self.disk.write(first, data))

    def delete(self, first: int, count: int) -> Any:
        return self._later(self.disk.delete(first, count))

    def flush(self) -> Any:
        return self._later(self.disk.flush())


class AsyncMesh:
    """A mesh that goes on in the running loop of asyncio. It is made, and called, in that loop.

        async with tazbrev.AsyncMesh(header, disks=[disk]) as mesh:
            async with await mesh.open('a', 'h', 'md0', r=1) as handle:
                data = await handle.read(0, 512)
    """

    def __init__(self, header: Union[str, bytes], disks: Disks = (), trace: Optional[Trace] = None) -> None:
        self._loop = asyncio.get_running_loop()
        self._is_called = False
        placed = _placed(Header(header), disks)
        named = {line.name: _Awaited(disk) for line, disk in zip(Header(header).disks, placed)}
        self.mesh = Mesh(header, named, trace)
        self._disks = dict(zip(named, placed))
        self.mesh.on_late_answer = lambda: self._loop.call_soon_threadsafe(self._go_on)
        self._go_on()

    def _soon(self) -> None:
        """Has the mesh go on, once the loop comes to it."""
        if not self._is_called:
            self._is_called = True
            self._loop.call_soon(self._go_on)

    def _go_on(self) -> None:
        self._is_called = False
        if self.mesh.is_open:
            self.mesh.run()

    async def wait(self, request: 'Request[Value]') -> Value:
        """The result of a request."""
        if not request.done():
            future: 'asyncio.Future[None]' = self._loop.create_future()
            request.add_done_callback(lambda _: None if future.done() else future.set_result(None))
            self._soon()
            await future
        return request.result()

    @property
    def disks(self) -> Dict[str, Disk]:
        return dict(self._disks)

    @property
    def generation(self) -> int:
        return self.mesh.generation

    def text(self) -> str:
        return self.mesh.text()

    def list(self) -> List[rows.Geom]:
        return self.mesh.list()

    async def open(self, actor: str, name: str, provider: str, r: int = 0, w: int = 0, e: int = 0) -> 'AsyncHandle':
        return AsyncHandle(self, self.mesh.open(actor, name, provider, r, w, e))

    async def command(self, line: str) -> Optional[bytes]:
        """As of `Mesh`; a `sync` or `settle` waits for all requests that are out."""
        if line.split(' ')[1:] in (['sync'], ['settle']):
            for request in [*self.mesh._requests.values()]:
                await self._silently(request)
        try:
            got: Optional[bytes] = await self.wait(self.mesh.submit_command(line))
            return got
        finally:
            self._go_on()

    async def _silently(self, request: 'Request[Any]') -> None:
        try:
            await self.wait(request)
        except Exception:  # its own caller is told
            pass

    async def insert(self, disk: str, actor: Optional[str] = None) -> None:
        self.mesh.insert(disk, actor)

    async def pull(self, disk: str, actor: Optional[str] = None) -> None:
        self.mesh.pull(disk, actor)

    def close(self) -> None:
        self.mesh.close()

    async def __aenter__(self) -> 'AsyncMesh':
        return self

    async def __aexit__(self, kind: Optional[Type[BaseException]], fault: Optional[BaseException],
                        trace: Optional[TracebackType]) -> None:
        self.close()


class AsyncHandle:
    """A handle whose requests are awaited. It is closed at the end of an `async with`."""

    def __init__(self, mesh: AsyncMesh, handle: Handle) -> None:
        self.mesh, self.handle = mesh, handle

    async def read(self, offset: int, length: int) -> bytes:
        return await self.mesh.wait(self.handle.submit_read(offset, length))

    async def write(self, offset: int, data: Data) -> None:
        await self.mesh.wait(self.handle.submit_write(offset, data))

    async def delete(self, offset: int, length: int) -> None:
        await self.mesh.wait(self.handle.submit_delete(offset, length))

    async def flush(self) -> None:
        await self.mesh.wait(self.handle.submit_flush())

    async def close(self) -> None:
        self.handle.close()

    async def __aenter__(self) -> 'AsyncHandle':
        return self

    async def __aexit__(self, kind: Optional[Type[BaseException]], fault: Optional[BaseException],
                        trace: Optional[TracebackType]) -> None:
        if self.mesh.mesh.is_open:
            for request in self.handle._out():
                await self.mesh._silently(request)
            await self.close()
