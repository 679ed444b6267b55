"""Traces: the script, the sizes of its images, the steps with their seats, and a report."""
from __future__ import annotations

import re, sys
from typing import Iterator, Optional

from geomtools import files, grammar
from geomtools.limits import MAX_IMAGE_BYTES, MAX_TRACE_BYTES
from geomtools.model.mesh import Mesh
from geomtools.model.steps import Step, step_of, step_text
from geomtools.scripts import Plan

SMALL, LARGE = 2 ** 32, 2 ** 64
REPORT = '% report'
# The words of a step behind its seat; `A` is a number below 2^32, `B` one below 2^64, and RUNS are bytes.
FORMS = {
    ('go',): 'A', ('event',): '', ('judge',): '', ('reap',): '', ('wash',): '', ('start',): 'B', ('take',): 'A B',
    ('deliver', 'done'): 'B done', ('deliver', 'failed'): 'B failed A', ('deliver', 'bytes'): 'B bytes RUNS',
    ('up',): 'B',
}


class NoTrace(Exception):
    """The text isn't a trace, or its script isn't a script: the line that verify names, and the cause."""

    def __init__(self, line: int, cause: str) -> None:
        super().__init__(f'line {line}: {cause}')


class Trace:
    """A script with the sizes of its images, the steps that were made for it as (seat, step), and a report. `line` is
    the line of the first step."""

    def __init__(self, script: str, plan: Plan, steps: list[tuple[int, Step]], report: str) -> None:
        self.script = script if script.endswith('\n') or not script else script + '\n'
        self.plan, self.report, self.steps = plan, report, list(steps)
        self.front = self.script + ''.join(f'% disk {disk.sectors}\n' for disk in plan.disks if disk.is_image)
        self.line = self.front.count('\n') + 1

    def copy(self) -> Trace:
        return Trace(self.script, self.plan, self.steps, self.report)

    def lines(self) -> list[str]:
        return [f'% {seat} {step_text(step)}\n' for seat, step in self.steps] + [REPORT + '\n']

    def text(self) -> str:
        return self.front + ''.join(self.lines()) + self.report

    def answer(self) -> tuple[int, str]:
        """The status and the line with which verify answers, found by making the steps again."""
        mesh = Mesh(self.plan)
        for number, (seat, step) in enumerate(self.steps, self.line):
            if not mesh.is_enabled(seat, step):
                return 9, f'no: line {number}\n'
            mesh.make(seat, step)
        if not mesh.at_rest():
            return 9, 'no: not at rest\n'
        return (0, 'yes\n') if mesh.report() == self.report else (9, 'no: report\n')


def number_of(word: str, most: int = SMALL) -> Optional[int]:
    """The number below this that a word is, or None."""
    number = int(word) if grammar.DECIMAL.fullmatch(word) else most
    return number if number < most else None


def step_of_line(line: str) -> Optional[tuple[int, Step]]:
    """The seat and the step of a line, or None where it isn't of its form."""
    mark, *words = line.split(' ')
    if mark != '%' or len(words) < 2 or number_of(words[0]) is None:
        return None
    form = FORMS.get(('deliver', *words[3:4]) if words[1] == 'deliver' else (words[1],))
    return (int(words[0]), step_of(words[1:])) if form is not None and has_form(words[2:], form.split()) else None


def has_form(words: list[str], form: list[str]) -> bool:
    if form[-1:] == ['RUNS']:
        bytes_at = len(form) - 1
        return has_form(words[:bytes_at], form[:-1]) and bool(words[bytes_at:]) and grammar.are_runs(words[bytes_at:])
    fits = {'A': lambda it: number_of(it) is not None, 'B': lambda it: number_of(it, LARGE) is not None}
    return len(words) == len(form) and all(fits[name](it) if name in fits else name == it
                                           for name, it in zip(form, words))


class Reader:
    """The lines of a trace behind its script, each of which has to be ended."""

    def __init__(self, text: str) -> None:
        self.text, self.at = text, 0 if text.startswith('%') else text.find('\n%') + 1 or len(text)
        self.script = text[:self.at]
        self.number = self.script.count('\n') + (not self.script.endswith('\n') and self.script != '')

    def line(self) -> str:
        end = self.text.find('\n', self.at)
        self.number += 1
        if end < 0:
            raise self.odd()
        line, self.at = self.text[self.at:end], end + 1
        return line

    def odd(self) -> NoTrace:
        return NoTrace(self.number, 'trace')

    def sectors(self, size: int) -> int:
        """The sectors of an image whose sectors are of this size, which its line tells."""
        found = re.fullmatch(r'% disk ([1-9][0-9]{0,19})', self.line())
        if not found or int(found[1]) * size > MAX_IMAGE_BYTES:
            raise self.odd()
        return int(found[1])

    def steps(self) -> Iterator[tuple[int, Step]]:
        while (line := self.line()) != REPORT:
            step = step_of_line(line)
            if step is None:
                raise self.odd()
            yield step


def read(text: str) -> Trace:
    """The trace that a text is, or NoTrace."""
    reader = Reader(text)
    faults = grammar.faults(reader.script.encode(errors='surrogateescape'))
    if faults:
        raise NoTrace(faults[0].line, faults[0].cause)
    images = [it for it in Plan(reader.script).disks if it.is_image]
    plan = Plan(reader.script, {it.name: reader.sectors(it.sector) for it in images})
    steps = list(reader.steps())
    return Trace(reader.script, plan, steps, text[reader.at:])


def is_trace(text: str) -> bool:
    """Whether a text is meant as a trace: it has the mark of a report."""
    return f'\n{REPORT}\n' in '\n' + text


def read_named(name: str, text: str) -> Trace:
    """The trace that the text of a file of this name is; where it is none the tool ends."""
    if len(text) > MAX_TRACE_BYTES:
        print(f'{name}: more than {MAX_TRACE_BYTES} bytes, so that verify answers: script too long', file=sys.stderr)
    try:
        return read(text)
    except NoTrace as fault:
        raise files.Stop(f"{name} isn't a trace: {fault}", 2) from fault


def read_file(path: str) -> Trace:
    """The trace in a file."""
    return read_named(path, files.read_text(path))


def read_printed(text: str, script: str, plan: Plan) -> Optional[Trace]:
    """The trace of this script that a run has printed, byte for byte as it is due, or None."""
    try:
        trace = read(text)
    except NoTrace:
        return None
    due = Trace(script, plan, trace.steps, trace.report)
    return due if due.text() == text else None


def answer(text: str) -> tuple[int, str]:
    """The status and the line with which verify answers a text."""
    try:
        return read(text).answer()
    except NoTrace as fault:
        return 2, f'{fault}\n'
