"""The state of the mesh: everything that steps read and change."""
from __future__ import annotations

import collections
from dataclasses import dataclass, field
from typing import Deque, Optional, Sequence, Tuple, Union

from geomtools.model.counts import NOTHING, ONE_READ, Counts, Demand
from geomtools.model.graph import Consumer, Geom, Graph, Provider
from geomtools.scripts import Command, Declared

# What a request came to: ('bytes', data), ('done',) or ('error', name of the error).
Result = Tuple
# Kinds of events, each with the provider that it names.
NEW, SPOIL, ORPHAN, RESIZE = 'NewProvider', 'Spoil', 'Orphan', 'Resize'
# How far the class is that a taste asks: not at all, a sector comes next, its read is out, its read is back.
NO_CLASS, NEXT_SECTOR, READ_OUT, READ_BACK = 'no class', 'next sector', 'read out', 'read back'
# Phases of a bio.
DOWN, SENT, BUSY, WAITING, UP, DONE = 'Down', 'Sent', 'Busy', 'Waiting', 'Up', 'Done'


@dataclass(eq=False)
class Handle:
    """An open handle of an actor. Once it is reaped it has no consumer."""
    actor: int
    name: str
    consumer: Optional[Consumer]
    grant: Counts
    line: int
    is_dead: bool = False


@dataclass(eq=False)
class Line:
    """The line of a script for which a request was made, and the handle that it was made through."""
    number: int
    handle: Handle


@dataclass(eq=False)
class Bio:
    """A request on its way. It is owned by the line or the taste for which it was made, or by the bio of which it is a
    piece."""
    number: int
    cmd: str
    offset: int
    size: int
    data: bytes
    source: Consumer
    target: Provider
    owner: Union[Line, Taste, Bio]
    phase: str = DOWN
    seat: Optional[int] = None
    result: Optional[Result] = None


@dataclass(eq=False)
class Taste:
    """A taste under way: the classes that are left, the one that is asked and how far, the sector that it wants next,
    what was read for it, and the chain of links that EBR has read, each as its sector and the partition it names."""
    provider: Provider
    consumer: Consumer
    classes: Deque[str]
    asked: str = NO_CLASS
    kind: Optional[str] = None
    sector: int = 0
    got: Optional[Result] = None
    links: list[tuple[int, Optional[tuple[int, int]]]] = field(default_factory=list)


class World:
    """A graph, handles, requests, events, the taste under way, and the commands that each actor has left."""

    def __init__(self, disks: Sequence[Declared], commands: Sequence[Sequence[Command]]) -> None:
        self.graph, self.disks = Graph(), disks
        self.left = [collections.deque(those) for those in commands]
        self.replies: dict[int, str] = {}
        self.handles: list[Handle] = []
        self.bios: dict[int, Bio] = {}
        self.events: Deque[tuple[str, Provider]] = collections.deque()
        self.taste: Optional[Taste] = None
        self.dev = self.graph.add_geom('DEV', 'dev')
        self.taster = self.graph.add_geom('TASTE', 'taste')
        for number, disk in enumerate(disks):
            if not disk.later:
                self.stand(number)

    def offer(self, geom: Geom, name: str, size: int, sector: int, start: int = 0) -> None:
        """A new provider of a geom, which is offered for taste."""
        self.events.append((NEW, self.graph.add_provider(geom, name, size, sector, start)))

    def stand(self, number: int) -> None:
        """A disk of the header stands."""
        disk = self.disks[number]
        geom = self.graph.add_geom('DISK', disk.name, disk=number)
        self.offer(geom, disk.name, disk.sector * disk.sectors, disk.sector)

    def reply(self, line: int, text: str) -> None:
        self.replies.setdefault(line, text)

    # Counts

    def granted(self) -> dict[Consumer, Counts]:
        """What each consumer of DEV and TASTE was granted: its handle's grant, and one read while a taste's is out."""
        granted = {it.consumer: it.grant for it in self.handles if it.consumer}
        if self.taste and self.taste.asked == READ_OUT:
            granted[self.taste.consumer] = ONE_READ
        return granted

    def demand(self) -> Demand:
        return Demand(self.graph, self.granted())

    # Requests

    def is_active(self, consumer: Consumer) -> bool:
        """Whether a request from the consumer hasn't come back."""
        return any(it.source is consumer and it.phase != DONE for it in self.bios.values())

    def disk_of(self, bio: Bio) -> Optional[int]:
        return bio.target.geom.disk

    def busy(self, disk: int) -> Optional[Bio]:
        """The request that the disk has in hand."""
        return next((it for it in self.bios.values() if it.phase == BUSY and self.disk_of(it) == disk), None)

    def children(self, parent: Bio) -> list[Bio]:
        return [it for it in self.bios.values() if it.owner is parent]

    def out_of(self, actor: int) -> Optional[Bio]:
        """The first request of an actor's own that is out."""
        own = (it for it in self.bios.values() if isinstance(it.owner, Line))
        return next((it for it in own if it.owner.handle.actor == actor), None)

    # What goes

    def to_reap(self) -> Optional[Handle]:
        """The first dead handle whose consumer has no request out."""
        return next((it for it in self.handles if it.is_dead and it.consumer and not self.is_active(it.consumer)), None)

    def to_wash(self) -> Union[Provider, Consumer, Geom, None]:
        """The first part of a withering geom that can go: a provider with nothing attached, a consumer that holds
        nothing and has nothing out, the geom itself when it has neither."""
        withering = [it for it in self.graph.geoms if it.is_withering]
        if not withering:
            return None
        demand, graph = self.demand(), self.graph
        for geom in withering:
            providers, consumers = graph.providers_of(geom), graph.consumers_of(geom)
            parts = [it for it in providers if not demand.attached[it]]
            parts += [it for it in consumers if demand.want(it) == NOTHING and not self.is_active(it)]
            parts += [] if providers or consumers else [geom]
            if parts:
                return parts[0]
        return None

    def is_unsettled(self) -> bool:
        """Whether an event, a taste, a request, a reap or a wash is due."""
        return bool(self.events or self.taste or self.bios or self.to_reap() or self.to_wash())
