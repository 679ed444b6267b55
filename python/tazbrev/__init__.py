"""tazbrev: FreeBSD's GEOM as a mesh over disks of your own.

    import tazbrev

    with tazbrev.Mesh('ram md0 512 16\\nactor a\\n') as mesh:
        with mesh.open('a', 'h', 'md0', r=1, w=1) as handle:
            handle.write(512, b'x' * 512)
            assert handle.read(512, 512) == b'x' * 512

A mesh has a header, which names its disks and actors. An actor opens a provider, such as `md0`, as a handle. Requests
go through geoms (nop, concat, stripe, labels, slices) to disks, which are objects of yours. What is proved is the
library's: this package is tested only.
"""
from .aio import AsyncHandle, AsyncMesh
from .disks import Disk, FileDisk, MemoryDisk, Pending
from .errors import (AccessError, BusyError, CallError, ClosedError, CountError, DepthError, DiskError, FormError,
                     GeomError, GoneError, HandleError, HeaderError, LibraryError, LoopError, MemoryWantingError,
                     NameInUseError, NotFoundError, OpenError, RangeError, RoomError, StuckError, TazbrevError,
                     ThreadError, TransferError, UnfitError)
from .mesh import Handle, Mesh, Request
from .rows import Consumer, Counts, Geom, Provider
from .trace import Trace

__version__ = '1.0.0'

__all__ = [
    'AccessError', 'AsyncHandle', 'AsyncMesh', 'BusyError', 'CallError', 'ClosedError', 'Consumer', 'CountError',
    'Counts', 'DepthError', 'Disk', 'DiskError', 'FileDisk', 'FormError', 'Geom', 'GeomError', 'GoneError', 'Handle',
    'HandleError', 'HeaderError', 'LibraryError', 'LoopError', 'MemoryDisk', 'MemoryWantingError', 'Mesh',
    'NameInUseError', 'NotFoundError', 'OpenError', 'Pending', 'Provider', 'RangeError', 'Request', 'RoomError',
    'StuckError', 'TazbrevError', 'ThreadError', 'Trace', 'TransferError', 'UnfitError',
]
