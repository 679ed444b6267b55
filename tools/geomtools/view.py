"""view TRACE: a page (HTML) that shows a trace step by step: the mesh, who holds what, requests and replies."""
from __future__ import annotations

import argparse, html, json, pathlib
from typing import Iterator, Optional

from geomtools import explain, traces
from geomtools.model import step_text
from geomtools.model.listing import counts_text, mesh_lines
from geomtools.model.world import Bio, Line, World
from geomtools.replay import Replay, cut

PAGE = pathlib.Path(__file__).resolve().parent / 'view.html'
STEP_ROOM = 160
# Steps of requests, which leave the mesh, the handles, the taste and the events as they were.
STAYING = ('start', 'take', 'deliver')


def add_words(parser: argparse.ArgumentParser) -> None:
    parser.add_argument('trace', help='the file of the trace, or - for standard input')
    parser.add_argument('--images', metavar='FOLDER', help='the folder with the images as they were before the run')


def state_lines(world: World, actors: list[str]) -> Iterator[str]:
    """The mesh at a moment, the handles that are open, and the taste that is under way."""
    yield from mesh_lines(world)
    for it in world.handles:
        provider = it.consumer.provider.name if it.consumer else 'nothing'
        yield f'handle {it.name} of {actors[it.actor]} at {provider} {counts_text(it.grant)}' + ' dead' * it.is_dead
    if world.taste:
        yield f'taste of {world.taste.provider.name}, class {world.taste.kind or "none yet"}'
    yield from (f'event {kind} of {provider.name}' for kind, provider in world.events)


class Films:
    """What is shown of a trace: the steps, the different states with the step from which each stands, the requests with
    the steps at which each came further, and the replies with the step at which each came."""

    def __init__(self, trace: traces.Trace) -> None:
        self.trace, self.replay = trace, Replay(trace)
        self.world = self.replay.world
        self.steps: list[tuple[int, str]] = []
        self.states: list[str] = []
        self.state_at: list[int] = []
        self.numbers: dict[str, int] = {}
        self.requests: dict[int, dict] = {}
        self.replies: dict[int, tuple[int, str]] = {}
        self.note_state()
        for seat, step in trace.steps:
            if not self.replay.mesh.is_enabled(seat, step):
                break
            self.make(seat, step)

    def make(self, seat: int, step: tuple) -> None:
        """Makes a step, and notes what came of it."""
        before = set(self.world.replies)
        self.replay.make(seat, step)
        self.steps.append((seat, cut(step_text(step), STEP_ROOM)))
        number = len(self.steps)
        for bio in self.world.bios.values():
            if bio.number not in self.requests:
                self.requests[bio.number] = self.request(bio, number)
        if step[0] in ('start', 'take', 'deliver', 'up'):
            self.requests[step[2] if step[0] == 'take' else step[1]][step[0]] = number
        for line in self.world.replies.keys() - before:
            self.replies[line] = (number, self.world.replies[line])
        self.note_state(stays=step[0] in STAYING)

    def note_state(self, stays: bool = False) -> None:
        """Notes the state after a step, which some steps leave as it was."""
        if stays:
            self.state_at.append(self.state_at[-1])
            return
        text = '\n'.join(state_lines(self.world, self.trace.plan.actors))
        if text not in self.numbers:
            self.numbers[text] = len(self.states)
            self.states.append(text)
        self.state_at.append(self.numbers[text])

    def request(self, bio: Bio, number: int) -> dict:
        root = bio
        while isinstance(root.owner, Bio):
            root = root.owner
        line: Optional[Line] = root.owner if isinstance(root.owner, Line) else None
        return dict(number=bio.number, text=self.replay.request_text(bio), made=number, disk=self.world.disk_of(bio),
                    line=line.number if line else None, actor=line.handle.actor if line else None)


def findings(explanation: explain.Explanation, first: int) -> Iterator[dict]:
    """What is found against the trace, each with the step that it is of (0: of none)."""
    if explanation.verdict.startswith('no: line '):
        yield dict(step=int(explanation.verdict.split()[-1]) - first + 1, text='\n'.join(explanation.why))
    elif explanation.why:
        yield dict(step=0, text='\n'.join(explanation.why))
    yield from (dict(step=0, text=text) for text in explanation.report_told())
    for fault, text in zip(explanation.reads.faults, explanation.reads_told()):
        yield dict(step=fault.line - first + 1, text=text)


def data_of(trace: traces.Trace, images: dict[str, bytes]) -> dict:
    """All that the page shows."""
    explanation, films = explain.Explanation(trace, images), Films(trace)
    return dict(
        script=trace.script.split('\n')[:-1], actors=trace.plan.actors, disks=[it.name for it in trace.plan.disks],
        first=trace.line, steps=films.steps, states=films.states, stateAt=films.state_at,
        requests=list(films.requests.values()),
        replies={line: dict(step=step, text=cut(text, STEP_ROOM)) for line, (step, text) in films.replies.items()},
        verdict=explanation.verdict, findings=list(findings(explanation, trace.line)))


def main(given: argparse.Namespace) -> int:
    trace = traces.read_file(given.trace)
    data = json.dumps(data_of(trace, explain.images_of(trace, given.images)), separators=(',', ':'))
    page = PAGE.read_text()
    print(page.replace('TITLE', html.escape(given.trace)).replace('DATA', data.replace('</', '<\\/')), end='')
    return 0
