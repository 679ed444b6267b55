"""What the disks of a plan hold, and how they answer."""
from __future__ import annotations

from typing import Iterable, Mapping, Union

from geomtools.model.world import Bio
from geomtools.scripts import Plan


class Disks:
    """An image holds what is given for its name; all else is zeros."""

    def __init__(self, plan: Plan, images: Union[Mapping[str, bytes], Iterable[tuple[str, bytes]]] = ()) -> None:
        given = dict(images)
        self.held = [bytearray(given.get(disk.name, disk.sector * disk.sectors)) for disk in plan.disks]

    def serve(self, disk: int, bio: Bio) -> tuple:
        """The answer of a disk that does what it is asked for."""
        held, end = self.held[disk], bio.offset + bio.size
        if bio.cmd == 'read':
            return 'bytes', bytes(held[bio.offset:end])
        if bio.cmd != 'flush':
            held[bio.offset:end] = bio.data if bio.cmd == 'write' else bytes(bio.size)
        return ('done',)
