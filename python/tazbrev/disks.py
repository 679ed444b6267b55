"""Disks: what the mesh asks, and two kinds that are ready.

A disk is any object with the attributes and methods of `Disk`. A method that raises an exception has failed;
`DiskError` says after how many sectors. A method that has no answer yet returns a `Pending`, or any
`concurrent.futures.Future`.
"""
from __future__ import annotations

import concurrent.futures
import fcntl
import os
from types import TracebackType
from typing import Any, Optional, Protocol, Type, Union

from .errors import DiskError


Data = Union[bytes, bytearray, memoryview]
#: What a method returns that has its answer later.
Later = concurrent.futures.Future


class Disk(Protocol):
    """What a disk has. Places and counts are in sectors."""

    #: How many sectors there are.
    sectors: int
    #: How many bytes a sector has: 512 or 4096, as the header says.
    sector: int

    def read(self, first: int, count: int) -> Any:
        """The bytes of `count` sectors from `first` on, or a `Later` of them."""

    def write(self, first: int, data: bytes) -> Any:
        """Writes whole sectors. None, or a `Later` of None."""

    def delete(self, first: int, count: int) -> Any:
        """Sectors read as zeros from now on. None, or a `Later` of None."""

    def flush(self) -> Any:
        """Keeps what was written. None, or a `Later` of None."""


class Pending(concurrent.futures.Future):  # type: ignore[type-arg]
    """An answer that comes later, once, from any thread."""

    def answer(self, data: Optional[Data] = None) -> None:
        """The request is done; of a read these are its bytes."""
        self.set_result(data)

    def fail(self, text: str = 'the disk failed', done: int = 0) -> None:
        """The request failed after so many sectors."""
        self.set_exception(DiskError(text, done))


class MemoryDisk:
    """A disk in memory, of zeros."""

    def __init__(self, sectors: int, sector: int = 512) -> None:
        self.sectors, self.sector = sectors, sector
        #: What the disk holds.
        self.data = bytearray(sectors * sector)

    def read(self, first: int, count: int) -> Any:
        size = self.sector
        return bytes(self.data[first * size:(first + count) * size])

    def write(self, first: int, data: bytes) -> Any:
        at = first * self.sector
        self.data[at:at + len(data)] = data

    def delete(self, first: int, count: int) -> Any:
        size = self.sector
        self.data[first * size:(first + count) * size] = bytes(count * size)

    def flush(self) -> Any:
        pass


class FileDisk:
    """An image file, or another thing that has a path and whole sectors. It is locked (flock(2)) until it is closed."""

    def __init__(self, path: Union[str, 'os.PathLike[str]'], sector: int = 512) -> None:
        self.path, self.sector = os.fspath(path), sector
        self._file = os.open(self.path, os.O_RDWR | getattr(os, 'O_CLOEXEC', 0))
        try:
            fcntl.flock(self._file, fcntl.LOCK_EX | fcntl.LOCK_NB)
            size = os.lseek(self._file, 0, os.SEEK_END)
            if size == 0 or size % sector:
                raise ValueError(f'{self.path} has {size} bytes, which are not whole sectors of {sector}')
        except BaseException:
            os.close(self._file)
            raise
        self.sectors = size // sector
        self._zeros = bytes(32768)

    def read(self, first: int, count: int) -> Any:
        at, left, parts = first * self.sector, count * self.sector, []
        while left:
            part = os.pread(self._file, left, at)
            if not part:
                raise DiskError(f'{self.path} ends at {at}')
            parts.append(part)
            at, left = at + len(part), left - len(part)
        return parts[0] if len(parts) == 1 else b''.join(parts)

    def write(self, first: int, data: bytes) -> Any:
        start, view = first * self.sector, memoryview(data)
        written = 0
        while written < len(view):
            try:
                written += os.pwrite(self._file, view[written:], start + written)
            except OSError as fault:
                raise DiskError(str(fault), written // self.sector) from fault

    def delete(self, first: int, count: int) -> Any:
        per_turn = len(self._zeros) // self.sector
        for done in range(0, count, per_turn):
            part = min(per_turn, count - done)
            try:
                self.write(first + done, self._zeros[:part * self.sector])
            except DiskError as fault:
                raise DiskError(str(fault), done + fault.done) from fault

    def flush(self) -> Any:
        os.fsync(self._file)

    def close(self) -> None:
        """Lets the file go. A mesh that uses the disk has to be closed before."""
        if self._file >= 0:
            os.close(self._file)
            self._file = -1

    def __enter__(self) -> 'FileDisk':
        return self

    def __exit__(self, kind: Optional[Type[BaseException]], fault: Optional[BaseException],
                 trace: Optional[TracebackType]) -> None:
        self.close()
