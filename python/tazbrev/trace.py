"""What a mesh did, step by step, as a trace that `geomrun verify` judges."""
from __future__ import annotations

import itertools
from typing import Dict, List, Optional, Sequence, Tuple

from .errors import GeomError

# The steps that are due, by the numbers of `tazbrev.h`, as a trace has them.
_STEPS = ('', 'up {bio}', 'take {place} {bio}', 'start {bio}', 'judge', 'event', 'reap', 'wash')


def runs(data: bytes) -> str:
    """Bytes as runs of equal ones, as `11*512 00*1`."""
    return ' '.join(f'{byte:02x}*{len(list(run))}' for byte, run in itertools.groupby(data))


def step_text(kind: int, place: int, bio: int) -> Optional[str]:
    """A step that is due as a trace has it. None where none is."""
    return _STEPS[kind].format(place=place, bio=bio) if kind else None


class Trace:
    """Listens to the mesh that is made with it: `Mesh(header, disks, trace=Trace())`.

    `script` has the lines of the header and each command that was made, `steps` each step, and `replies` the reply of
    each line of the script. `text` is all of it, with the mesh. A class of yours may have more in `add_line`,
    `add_step` and `add_reply`, which are called as it happens.
    """

    def __init__(self) -> None:
        self.script: List[str] = []
        self.steps: List[str] = []
        self.replies: Dict[int, str] = {}
        self._lines: Dict[int, int] = {}

    def add_line(self, line: str) -> None:
        self.script.append(line)

    def add_step(self, step: str) -> None:
        self.steps.append(step)

    def add_reply(self, line: int, reply: str) -> None:
        self.replies[line] = reply

    def text(self, mesh: str) -> str:
        """The trace, with the mesh as text at its end. It is one once no request waits."""
        replies = [f'{line} {self.replies[line]}' for line in sorted(self.replies)]
        return '\n'.join([*self.script, *self.steps, '% report', *replies, mesh])

    # What the mesh tells.

    def _begin(self, header: bytes, sectors: Sequence[int]) -> None:
        """The header, and the sectors of each disk whose line doesn't say them."""
        for line in header.decode('ascii').splitlines():
            self.add_line(line)
        for count in sectors:
            self.add_step(f'% disk {count}')

    def _given(self, token: int, actor: Tuple[str, int], words: Sequence[object]) -> None:
        """A command was made: it is the next line of the script, and its actor's step."""
        command = ' '.join(runs(it) if isinstance(it, bytes) else str(it) for it in words)
        self.add_line(f'{actor[0]} {command}')
        self._lines[token] = len(self.script)
        self._made(f'go {actor[1]}')

    def _made(self, step: str) -> None:
        self.add_step(f'% 0 {step}')

    def _delivered(self, bio: int, answer: str) -> None:
        self._made(f'deliver {bio} {answer}')

    def _replied(self, token: int, value: Optional[bytes], error: Optional[GeomError], listing: str = '') -> None:
        """The reply to a command: its error, the bytes that it read, or the mesh that it shows."""
        said = error.name if error else f'ok {runs(value)}' if value else f'ok\n{listing.rstrip()}' if listing else 'ok'
        self.add_reply(self._lines.pop(token), said)
