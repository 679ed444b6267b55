"""explain TRACE: why `geomrun verify` says no to a trace, and which reads, which it believes, can't be true."""
from __future__ import annotations

import argparse, pathlib
from typing import Iterator

from geomtools import files, report_faults, traces
from geomtools.model import step_text
from geomtools.read_faults import Reads
from geomtools.replay import Replay, cut

INDENT = '    '


def add_words(parser: argparse.ArgumentParser) -> None:
    parser.add_argument('trace', help='the file of the trace, or - for standard input')
    parser.add_argument('--images', metavar='FOLDER', help='the folder with the images as they were before the run; '
                        'else what stands in an image is what is read of it first')
    parser.add_argument('--most', type=int, default=10, metavar='N',
                        help='tell at most so many reads and lines of the report, 0 for all (10)')


def images_of(trace: traces.Trace, folder: str | None) -> dict[str, bytes]:
    """The images of a trace that stand in a folder, by their names."""
    if folder is None:
        return {}
    images = {}
    for disk in trace.plan.disks:
        if disk.is_image:
            path = pathlib.Path(folder, f'{disk.name}.img')
            images[disk.name] = files.read_bytes(str(path))
            if len(images[disk.name]) != disk.sector * disk.sectors:
                raise files.Stop(f"{path} hasn't the size that the trace says", 2)
    return images


class Explanation:
    """What is told of a trace: the steps are made again up to the first that isn't possible, and each answer of a disk
    is compared with what the disk holds by the answers before."""

    def __init__(self, trace: traces.Trace, images: dict[str, bytes]) -> None:
        self.trace, self.replay = trace, Replay(trace)
        self.reads = Reads(self.replay, images)
        self.verdict, self.why = self.make_all()

    def make_all(self) -> tuple[str, list[str]]:
        """What verify says, and the lines that tell why."""
        mesh = self.replay.mesh
        for seat, step in self.trace.steps:
            if not mesh.is_enabled(seat, step):
                line = self.replay.line
                shown = cut(f'% {seat} {step_text(step)}')
                return f'no: line {line}', [f"line {line}: '{shown}' isn't possible: {mesh.against(seat, step)}",
                                            *indented(self.replay.against(seat, step))]
            if step[0] == 'deliver':
                self.reads.note(self.replay.line, mesh.world.bios[step[1]], step[2])
            self.replay.make(seat, step)
        if not mesh.at_rest():
            return 'no: not at rest', ['not at rest: after the last step this is left', *indented(self.replay.left())]
        return ('yes' if mesh.report() == self.trace.report else 'no: report'), []

    def report_told(self) -> Iterator[str]:
        """Each line of the report that differs, as a text of several lines."""
        if self.verdict == 'no: report':
            for number, due, reported in report_faults.faults(self.replay.mesh.report(), self.trace.report):
                where = f'report, {self.replay.shown_line(int(number))}' if number else 'report'
                yield '\n'.join([where, f'{INDENT}due       {due or "nothing"}',
                                 f'{INDENT}reported  {reported or "nothing"}'])

    def reads_told(self) -> Iterator[str]:
        """Each read at fault, as a text of several lines."""
        for fault in self.reads.faults:
            head = f"line {fault.line}: a read isn't answered with what {self.replay.disk_name(fault.disk)} holds"
            yield '\n'.join([head, *indented(self.reads.told(fault))])

    def told(self, most: int) -> Iterator[str]:
        """All that is told, where at most so many reads and lines of the report are."""
        yield from self.why
        for what, those in (('lines of the report', list(self.report_told())), ('reads', list(self.reads_told()))):
            shown = those[:most or None]
            yield from shown
            if len(those) > len(shown):
                yield f'{what} not told: {len(those) - len(shown)}; --most 0 tells all'
        unknown = self.reads.unknown()
        if unknown:
            yield f"not given, so what is read first is believed: {', '.join(unknown)}"
        wrong = len(self.reads.faults)
        yield f'verify says {self.verdict}; reads answered rightly {self.reads.right}, wrongly {wrong}'

    def is_right(self) -> bool:
        return self.verdict == 'yes' and not self.reads.faults


def indented(lines: Iterator[str]) -> Iterator[str]:
    return (INDENT + line for line in lines)


def main(given: argparse.Namespace) -> int:
    trace = traces.read_file(given.trace)
    explanation = Explanation(trace, images_of(trace, given.images))
    for text in explanation.told(given.most):
        print(text)
    return 0 if explanation.is_right() else 1
