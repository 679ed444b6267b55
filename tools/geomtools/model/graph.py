"""Geoms, providers and consumers, how they stand on each other, and their ranks."""
from __future__ import annotations

import collections, re
from dataclasses import dataclass, field
from typing import Iterator, Optional

NAME = re.compile(r'[A-Za-z0-9_./-]{1,63}')


@dataclass(eq=False)
class Geom:
    """An instance of a class. What its class keeps for it: the disk's number; the consumers that fill the places of its
    components, and the bytes of each component of a concat or a stripe; the bytes of a strip; the id of the records by
    which it was assembled; and which of its requests a nop fails."""
    number: int
    kind: str
    name: str
    is_automatic: bool = False
    is_withering: bool = False
    started: int = 0
    disk: Optional[int] = None
    places: list[Optional[Consumer]] = field(default_factory=list)
    sizes: list[int] = field(default_factory=list)
    stripe: Optional[int] = None
    id: Optional[int] = None
    fail: int = 0


@dataclass(eq=False)
class Provider:
    """The gate at which a geom offers service. `start` is where it begins in the one component below, if it is a slice,
    a logical partition or a window."""
    number: int
    geom: Geom
    name: str
    size: int
    sector: int
    start: int = 0
    has_error: bool = False


@dataclass(eq=False)
class Consumer:
    """The back door by which a geom is attached to a provider. It is marked where it has to go, since a writer came."""
    number: int
    geom: Geom
    provider: Provider
    is_marked: bool = False


class Graph:
    """What stands, each list in the order of the numbers. No number is used again."""

    def __init__(self) -> None:
        self.geoms: list[Geom] = []
        self.providers: list[Provider] = []
        self.consumers: list[Consumer] = []
        self.given: collections.Counter[str] = collections.Counter()

    def next_number(self, what: str) -> int:
        self.given[what] += 1
        return self.given[what]

    # What comes and goes

    def add_geom(self, kind: str, name: str, **config: object) -> Geom:
        geom = Geom(self.next_number('geom'), kind, name, **config)
        self.geoms.append(geom)
        return geom

    def add_provider(self, geom: Geom, name: str, size: int, sector: int, start: int = 0) -> Provider:
        provider = Provider(self.next_number('provider'), geom, name, size, sector, start)
        self.providers.append(provider)
        return provider

    def add_consumer(self, geom: Geom, provider: Provider) -> Consumer:
        consumer = Consumer(self.next_number('consumer'), geom, provider)
        self.consumers.append(consumer)
        return consumer

    # Who is where

    def providers_of(self, geom: Geom) -> list[Provider]:
        return [it for it in self.providers if it.geom is geom]

    def consumers_of(self, geom: Geom) -> list[Consumer]:
        return [it for it in self.consumers if it.geom is geom]

    def attached(self, provider: Provider) -> list[Consumer]:
        return [it for it in self.consumers if it.provider is provider]

    def named(self, name: str) -> Optional[Provider]:
        """The provider of the name without an error, else the youngest of the name."""
        those = [it for it in self.providers if it.name == name]
        return next((it for it in those if not it.has_error), those[-1] if those else None)

    def is_taken(self, name: str) -> bool:
        return any(it.name == name and not it.has_error for it in self.providers)

    def are_free(self, names: list[str]) -> bool:
        """Whether providers of these names can be made by a taste."""
        return all(NAME.fullmatch(it) and not self.is_taken(it) for it in names)

    def has_class(self, kind: str, provider: Provider) -> bool:
        """Whether the class has a geom on the provider that isn't withering."""
        return any(it.geom.kind == kind and not it.geom.is_withering for it in self.attached(provider))

    # Ways down

    def geoms_under(self, geom: Geom) -> Iterator[Geom]:
        return (it.provider.geom for it in self.consumers if it.geom is geom)

    def below(self, provider: Provider) -> list[Provider]:
        """The provider, and each that is reached downwards from it."""
        found = [provider]
        for it in found:
            found += [c.provider for c in self.consumers_of(it.geom) if c.provider not in found]
        return found

    def has_error_below(self, provider: Provider) -> bool:
        return any(it.has_error for it in self.below(provider))

    def reaches(self, start: Geom, end: Geom) -> bool:
        """Whether the one geom is the other, or is reached downwards from it."""
        found = [start]
        for geom in found:
            found += [it for it in self.geoms_under(geom) if it not in found]
        return end in found

    def ranks(self) -> dict[Geom, int]:
        """The rank of each geom: one more than the highest rank below it, and 1 where nothing is."""
        known: dict[Geom, int] = {}
        for geom in self.geoms:
            self._rank(geom, known)
        return known

    def rank(self, geom: Geom) -> int:
        return self._rank(geom, {})

    def _rank(self, geom: Geom, known: dict[Geom, int]) -> int:
        if geom not in known:
            known[geom] = 1 + max((self._rank(it, known) for it in self.geoms_under(geom)), default=0)
        return known[geom]
