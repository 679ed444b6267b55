"""Steps as tuples and as texts. A step is a word and what it names: ('go', actor), ('event',), ('judge',), ('reap',),
('wash',), ('start', bio), ('take', disk, bio), ('deliver', bio, got) or ('up', bio), where got is ('bytes', data),
('done',) or ('failed', sectors)."""
from __future__ import annotations

from typing import Sequence, Tuple

from geomtools import runs

Step = Tuple


def step_text(step: Step) -> str:
    """A step as a trace has it."""
    if step[0] != 'deliver':
        return ' '.join(map(str, step))
    word, *more = step[2]
    return 'deliver %d %s' % (step[1], ' '.join([word, *(runs.runs_text(it) if word == 'bytes' else str(it)
                                                          for it in more)]))


def step_of(words: Sequence[str]) -> Step:
    """The step that these words are."""
    word, *named = words
    if word != 'deliver':
        return (word, *(int(it) for it in named))
    bio, got, *more = named
    return word, int(bio), (got, *([runs.bytes_of_runs(more)] if got == 'bytes' else [int(it) for it in more]))
