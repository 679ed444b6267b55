"""Where a report differs from the one that is due."""
from __future__ import annotations

import difflib, re
from typing import Iterator

from geomtools.replay import cut

ROOM = 110
NUMBERED = re.compile(r'([1-9][0-9]*)( .*)?')


def blocks_of(text: str) -> dict[str, list[str]]:
    """The lines of a report by the line of the script that they answer. The mesh behind the last answer is its own."""
    blocks: dict[str, list[str]] = {'': []}
    number = ''
    for line in text.split('\n'):
        found = NUMBERED.fullmatch(line)
        number = found[1] if found else number
        blocks.setdefault(number, []).append(line)
    return blocks


def from_difference(text: str, other: str) -> str:
    """A line, without what is alike at its beginning if it is long."""
    at = next((k for k, (a, b) in enumerate(zip(text, other)) if a != b), min(len(text), len(other)))
    start = 0 if at < ROOM // 2 else at - ROOM // 4
    return ('.. ' if start else '') + cut(text[start:], ROOM)


def pairs(due: list[str], reported: list[str]) -> Iterator[tuple[str, str]]:
    """The lines that differ, each with the one that stands in its place, or an empty text."""
    for what, a, b, c, d in difflib.SequenceMatcher(None, due, reported, autojunk=False).get_opcodes():
        if what != 'equal':
            wanted, found = due[a:b], reported[c:d]
            for at in range(max(len(wanted), len(found))):
                yield (wanted + [''] * len(found))[at], (found + [''] * len(wanted))[at]


def faults(due: str, reported: str) -> Iterator[tuple[str, str, str]]:
    """The number of the line of the script, and what is due and reported, for each line that differs; where all lines
    are there and yet the texts differ, their first lines that do."""
    wanted, found = blocks_of(due), blocks_of(reported)
    told = False
    for number in dict.fromkeys([*wanted, *found]):
        for one, other in pairs(wanted.get(number, []), found.get(number, [])):
            told = True
            yield number, from_difference(one, other), from_difference(other, one)
    if not told and due != reported:
        one, other = next((pair for pair in zip(due.split('\n'), reported.split('\n')) if pair[0] != pair[1]))
        yield '', from_difference(one, other), from_difference(other, one)
