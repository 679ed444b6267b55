"""What a header declares: which disks in which order, and which actors. The library judges whether it is a header."""
from __future__ import annotations

from typing import Dict, List, NamedTuple, Optional, Union

from .errors import HeaderError


class DeclaredDisk(NamedTuple):
    """A line of a disk."""
    name: str
    sector: int
    #: How many sectors a `ram` has; None for a disk of the caller's.
    sectors: Optional[int]
    line: int


class Header:
    """The lines of a header, as text and as what they declare."""

    def __init__(self, text: Union[str, bytes]) -> None:
        if isinstance(text, str):
            text = text.encode('utf-8', 'surrogateescape')
        self.text = text if text.endswith(b'\n') or not text else text + b'\n'
        self.disks: List[DeclaredDisk] = []
        self.actors: Dict[str, int] = {}
        for number, line in enumerate(self.text.decode('latin-1').split('\n'), 1):
            if line and not line.startswith('#'):
                self._take(line.split(' '), number)

    def _take(self, words: List[str], number: int) -> None:
        if words[0] == 'actor' and len(words) == 2:
            self.actors.setdefault(words[1], len(self.actors))
        elif words[0] in ('disk', 'ram') and len(words) > 2:
            sectors = _decimal(words[3:4], number) if words[0] == 'ram' else None
            self.disks.append(DeclaredDisk(words[1], _decimal(words[2:3], number), sectors, number))
        elif words[0] in self.actors:
            raise HeaderError(number, 'is a command; give it by `command` once the mesh stands')
        else:
            raise HeaderError(number)


def _decimal(words: List[str], number: int) -> int:
    """A number of a line, as far as one must be known here."""
    if not words or not words[0].isascii() or not words[0].isdigit() or len(words[0]) > 20:
        raise HeaderError(number)
    return int(words[0])
