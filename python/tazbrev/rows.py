"""The mesh as rows, read from the text that `geomrun` prints at its end."""
from __future__ import annotations

import re
from typing import List, NamedTuple, Optional, Tuple


class Counts(NamedTuple):
    """How many rights there are to read, to write, and to exclude others."""
    r: int
    w: int
    e: int

    def __str__(self) -> str:
        return f'r{self.r}w{self.w}e{self.e}'


class Provider(NamedTuple):
    """The gate at which a geom offers service."""
    name: str
    size: int
    sector: int
    counts: Counts
    #: The name of the error that it carries.
    error: Optional[str] = None


class Consumer(NamedTuple):
    """The back door by which a geom is attached to a provider."""
    provider: str
    counts: Counts


class Geom(NamedTuple):
    """An instance of a class, with its providers and its consumers."""
    kind: str
    name: str
    rank: int
    is_withering: bool
    providers: Tuple[Provider, ...]
    consumers: Tuple[Consumer, ...]


_GEOM = re.compile(r'geom (\S+) (\S+) rank (\d+)( withering)?')
_PROVIDER = re.compile(r'  provider (\S+) size (\d+) sector (\d+) r(\d+)w(\d+)e(\d+)(?: (\w+))?')
_CONSUMER = re.compile(r'  consumer (\S+) r(\d+)w(\d+)e(\d+)')


def _counts(r: str, w: str, e: str) -> Counts:
    return Counts(int(r), int(w), int(e))


def parse(text: str) -> List[Geom]:
    """The geoms of such a text, in its order. ValueError at a line of another form."""
    geoms: List[Geom] = []
    for line in text.splitlines():
        geom, provider, consumer = (it.fullmatch(line) for it in (_GEOM, _PROVIDER, _CONSUMER))
        if geom:
            geoms.append(Geom(geom[1], geom[2], int(geom[3]), bool(geom[4]), (), ()))
        elif provider and geoms:
            row = Provider(provider[1], int(provider[2]), int(provider[3]), _counts(*provider.group(4, 5, 6)),
                           provider[7])
            geoms[-1] = geoms[-1]._replace(providers=(*geoms[-1].providers, row))
        elif consumer and geoms:
            geoms[-1] = geoms[-1]._replace(
                consumers=(*geoms[-1].consumers, Consumer(consumer[1], _counts(*consumer.group(2, 3, 4)))))
        else:
            raise ValueError(f'{line!r} is no line of a mesh')
    return geoms
