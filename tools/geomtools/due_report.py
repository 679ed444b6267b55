"""report TRACE: the report that is due of a trace, also of one of threads."""
from __future__ import annotations

import argparse, sys

from geomtools import files, traces
from geomtools.model import Mesh


def add_words(parser: argparse.ArgumentParser) -> None:
    parser.add_argument('trace', help='the file of the trace, or - for standard input')


def main(given: argparse.Namespace) -> int:
    trace = traces.read_file(given.trace)
    mesh = Mesh(trace.plan)
    for number, (seat, step) in enumerate(trace.steps, trace.line):
        why = mesh.against(seat, step)
        if why:
            raise files.Stop(f"{given.trace}: line {number} isn't possible: {why}; explain tells more")
        mesh.make(seat, step)
    print(mesh.report(), end='')
    if not mesh.at_rest():
        print(f'{given.trace}: not at rest, so this is the report of what was done; explain tells what is left',
              file=sys.stderr)
    return 0 if mesh.at_rest() else 1
