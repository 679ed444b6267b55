"""What the disks of a trace hold by its own steps, and the reads that were answered with something else.

A write that was answered `done` counts for all its sectors, and one that was answered `failed N` for its first N. What
stood on a disk before is known of memory disks, and of images that are given; of others it is what is read first.
"""
from __future__ import annotations

import collections
from dataclasses import dataclass, field
from typing import Iterator, Mapping, Optional

from geomtools import runs
from geomtools.model.world import Bio
from geomtools.replay import Replay, cut

START = 'what stood there at first'


@dataclass(eq=False)
class Write:
    """A write or a delete that a disk has answered: its line in the trace, its words, the disk and the first sector,
    and the bytes of each sector, of which the first `done` count."""
    line: int
    text: str
    disk: int
    first: int
    sectors: list[bytes]
    done: int

    def puts(self, disk: int, sector: int) -> Optional[bytes]:
        """What it was to put in a sector, if anything."""
        is_inside = disk == self.disk and 0 <= sector - self.first < len(self.sectors)
        return self.sectors[sector - self.first] if is_inside else None


@dataclass(eq=False)
class Version:
    """What a sector holds from some time on, who wrote it, and the lines at which it was read so."""
    data: bytes
    write: Optional[Write]
    read_at: list[int] = field(default_factory=list)

    def is_before(self, fault: Fault, data: bytes) -> bool:
        """Whether a sector held these bytes so before a read."""
        return self.data == data and (self.write is None or self.write.line < fault.line)


@dataclass
class Fault:
    """A read that was answered with other bytes: its line in the trace, its words, and for each sector that differs
    its number, what it held, and what was delivered."""
    line: int
    text: str
    disk: int
    sector_size: int
    differ: list[tuple[int, Version, bytes]]


class Reads:
    """What each sector of the disks has held so far, and the reads at fault."""

    def __init__(self, replay: Replay, images: Mapping[str, bytes]) -> None:
        self.replay, self.images = replay, images
        self.versions: dict[tuple[int, int], list[Version]] = {}
        self.writes: dict[bytes, list[Write]] = collections.defaultdict(list)
        self.faults: list[Fault] = []
        self.right = 0

    # What is held

    def at_first(self, disk: int, sector: int) -> Optional[bytes]:
        """What a sector holds at the beginning, or None where that isn't known."""
        declared = self.replay.trace.plan.disks[disk]
        if not declared.is_image:
            return bytes(declared.sector)
        data = self.images.get(declared.name)
        at = sector * declared.sector
        return None if data is None else data[at:at + declared.sector].ljust(declared.sector, bytes(1))

    def held(self, disk: int, sector: int) -> list[Version]:
        """The versions of a sector, the first of which has nobody's bytes."""
        if (disk, sector) not in self.versions:
            first = self.at_first(disk, sector)
            self.versions[disk, sector] = [] if first is None else [Version(first, None)]
        return self.versions[disk, sector]

    def note(self, line: int, bio: Bio, got: tuple) -> None:
        """The answer of a disk to a request that it had in hand."""
        disk, size = bio.target.geom.disk, bio.target.sector
        first, count = bio.offset // size, bio.size // size
        if got[0] == 'bytes':
            self.note_read(line, bio, disk, first, got[1])
        elif bio.cmd in ('write', 'delete'):
            data = bio.data if bio.cmd == 'write' else bytes(bio.size)
            sectors = [data[at:at + size] for at in range(0, len(data), size)]
            done = count if got[0] == 'done' else got[1]
            self.note_write(Write(line, self.replay.request_text(bio), disk, first, sectors, done))

    def note_write(self, write: Write) -> None:
        for data in set(write.sectors):
            self.writes[data].append(write)
        for at, data in enumerate(write.sectors[:write.done]):
            self.held(write.disk, write.first + at).append(Version(data, write))

    def note_read(self, line: int, bio: Bio, disk: int, first: int, data: bytes) -> None:
        size, differ = bio.target.sector, []
        for at in range(0, len(data), size):
            sector, found = first + at // size, data[at:at + size]
            versions = self.held(disk, sector) or self.learn(disk, sector, found)
            last = versions[-1]
            if last.data == found:
                last.read_at.append(line)
            else:
                differ.append((sector, last, found))
        if differ:
            self.faults.append(Fault(line, self.replay.request_text(bio), disk, size, differ))
        self.right += not differ

    def learn(self, disk: int, sector: int, found: bytes) -> list[Version]:
        """What stands in an image that isn't given is what is read first."""
        self.versions[disk, sector] = [Version(found, None)]
        return self.versions[disk, sector]

    # What is told

    def told(self, fault: Fault) -> Iterator[str]:
        """What is told of a read at fault."""
        sector, version, found = fault.differ[0]
        name, size = self.replay.disk_name(fault.disk), fault.sector_size
        yield fault.text
        more = f', and {len(fault.differ) - 1} more that differ' if len(fault.differ) > 1 else ''
        yield f'sector {sector} of {name}, at byte {sector * size}{more}'
        yield f'    held       {cut(runs.runs_text(version.data))}'
        yield f'    delivered  {cut(runs.runs_text(found))}'
        yield from self.missed(fault)
        yield f'what was delivered is {self.source(fault, *fault.differ[0])}'

    def missed(self, fault: Fault) -> Iterator[str]:
        """The writes that a read misses, once each, and whether any read has met them."""
        versions = {id(it.write): it for _, it, _ in reversed(fault.differ) if it.write}
        for version in reversed(list(versions.values())):
            yield f'it misses the write delivered at line {version.write.line}: {version.write.text}'
            if version.read_at:
                right = version.read_at[-1]
                yield f'    which the read delivered at line {right} holds: so this read is wrong, not the write'
            else:
                yield '    which no read holds: the write was lost or went elsewhere, or each read of it is wrong'

    def source(self, fault: Fault, sector: int, held: Version, found: bytes) -> str:
        """Where the bytes come from that were delivered for a sector: from what stood there before, from a write that
        failed there or came later, or from another sector."""
        versions = self.held(fault.disk, sector)
        for version in reversed(versions[:versions.index(held)]):
            if version.data == found:
                write = version.write
                return f'what the write delivered at line {write.line} put there before' if write else START
        for write in reversed(self.writes.get(found, [])):
            if write.puts(fault.disk, sector) == found:
                how = 'which failed there' if write.line < fault.line else 'which is later'
                return f'what the write delivered at line {write.line}, {how}, was to put there'
        return self.elsewhere(fault, sector, found) or 'nothing that was written or stood anywhere before'

    def elsewhere(self, fault: Fault, sector: int, found: bytes) -> str:
        """The nearest other sector that held these bytes."""
        places = [key for key, versions in self.versions.items() if any(it.is_before(fault, found) for it in versions)]
        near = min(places, key=lambda key: (key[0] != fault.disk, abs(key[1] - sector)), default=None)
        if near is None:
            return ''
        return f'what sector {near[1]} of {self.replay.disk_name(near[0])} held, at byte {near[1] * fault.sector_size}'

    def unknown(self) -> list[str]:
        """The images that aren't given."""
        return [it.name for it in self.replay.trace.plan.disks if it.is_image and it.name not in self.images]
