"""Traces made again, step by step, and the words for what stands there: requests, tastes, and what is possible."""
from __future__ import annotations

from typing import Iterator, Optional

from geomtools.model import Mesh
from geomtools.model.steps import Step, step_text
from geomtools.model.tasting import why_ended
from geomtools.model.world import BUSY, NEXT_SECTOR, READ_BACK, READ_OUT, Bio, Line, Taste
from geomtools.traces import Trace

# How many steps that are possible are told.
MOST_POSSIBLE = 24


class Replay:
    """The mesh of a trace, as far as its steps can be made, and at which lines what happened. `line` is that of the
    next step."""

    def __init__(self, trace: Trace) -> None:
        self.trace, self.mesh, self.line = trace, Mesh(trace.plan), trace.line
        self.world = self.mesh.world
        self.script = trace.script.split('\n')
        self.taken: dict[int, int] = {}
        self.begun: Optional[int] = None
        self.writer_came = ''
        self.last_taste = ['no taste has begun before']

    def make(self, seat: int, step: Step) -> None:
        """Makes a step that is possible, and notes what is told of it later."""
        taste = self.world.taste
        end = why_ended(taste) if taste else ''
        command = self.world.left[step[1]][0] if step[0] == 'go' else None
        self.mesh.make(seat, step)
        if step[0] == 'take':
            self.taken[step[2]] = self.line
        if not taste and self.world.taste:
            self.begun, self.writer_came = self.line, ''
        if taste and taste.consumer.is_marked and not self.writer_came:
            by = f' ({self.shown_line(command.line)})' if command else ''
            self.writer_came = f'a writer came to it at line {self.line}{by}'
        if taste and not self.world.taste:
            why = f'{self.writer_came}, and then one judge ends it' if taste.consumer.is_marked else end
            span = f'from line {self.begun} to line {self.line}'
            self.last_taste = [f'the last taste was of {taste.provider.name}, {span}', f'    {why}']
        self.line += 1

    # Words

    def shown_line(self, number: int) -> str:
        return f'line {number}: {cut(self.script[number - 1])}'

    def disk_name(self, disk: int) -> str:
        return self.trace.plan.disks[disk].name

    def origin(self, bio: Bio) -> str:
        """For what a request was made in the end."""
        while isinstance(bio.owner, Bio):
            bio = bio.owner
        if isinstance(bio.owner, Line):
            return 'for ' + self.shown_line(bio.owner.number)
        return f'for the taste of {bio.owner.provider.name}'

    def request_text(self, bio: Bio) -> str:
        where = f'of {bio.target.name}' if bio.cmd == 'flush' else (
            f'of {bio.target.name} at {bio.offset}, {bio.size} bytes')
        return f'request {bio.number}, a {bio.cmd} {where}, {self.origin(bio)}'

    def phase_text(self, bio: Bio) -> str:
        """The phase of a request, and who has it."""
        if bio.phase != BUSY:
            return f'phase {bio.phase}'
        return f'phase Busy, taken by seat {bio.seat} at line {self.taken[bio.number]}'

    def taste_text(self, taste: Taste) -> str:
        """How far the taste under way is."""
        if taste.consumer.is_marked:
            how = f'{self.writer_came}, so {"once its read is back " * (taste.asked == READ_OUT)}one judge ends it'
        elif taste.provider.has_error:
            how = 'its provider is lost, so one judge ends it'
        elif taste.asked == READ_OUT:
            bio = next(it for it in self.world.bios.values() if it.owner is taste)
            how = f'{taste.kind} waits for request {bio.number}, {self.phase_text(bio)}'
        elif taste.asked in (READ_BACK, NEXT_SECTOR):
            how = f'the next judge is {taste.kind}\'s, ' + (
                'on what it read' if taste.asked == READ_BACK else f'which asks for sector {taste.sector}')
        else:
            how = f'the next judge asks {taste.classes[0]}' if taste.classes else 'the next judge ends it'
        return f'a taste of {taste.provider.name} is under way since line {self.begun}: {how}'

    def step_shown(self, step: Step) -> str:
        """A step that is possible, with what it does."""
        text, world = step_text(step), self.world
        if step[0] == 'go':
            return f'{text} ({self.shown_line(world.left[step[1]][0].line)})'
        if step[0] == 'event':
            kind, provider = world.events[0]
            return f'{text} ({kind} of {provider.name})'
        return text

    def possible(self) -> Iterator[str]:
        """What is possible, and for whom, where not any seat can do it."""
        steps = [self.step_shown(it) for it in self.mesh.possible()]
        busy = [it for it in self.world.bios.values() if it.phase == BUSY]
        steps += [f'deliver {it.number} (seat {it.seat} alone)' for it in busy]
        yield 'possible here: ' + ('; '.join(steps[:MOST_POSSIBLE]) or 'nothing')
        if len(steps) > MOST_POSSIBLE:
            yield f'and {len(steps) - MOST_POSSIBLE} more'

    # Why not

    def against(self, seat: int, step: Step) -> Iterator[str]:
        """What stands where a step isn't possible."""
        bio = self.world.bios.get(step[1 + (step[0] == 'take')]) if len(step) > 1 and step[0] != 'go' else None
        if bio:
            yield f'{self.request_text(bio)}: {self.phase_text(bio)}'
        elif len(step) > 1 and step[0] != 'go':
            yield from self.numbers()
        if step[0] == 'take':
            busy = self.world.busy(step[1])
            if busy and busy is not bio:
                yield f'{self.disk_name(step[1])} has {self.request_text(busy)}: {self.phase_text(busy)}'
        if step[0] == 'go' and step[1] < len(self.world.left):
            yield from self.waited_for(step[1])
        yield from self.of_tastes()
        yield from self.possible()

    def numbers(self) -> Iterator[str]:
        """Which requests there are, where one is named that isn't."""
        made, out = self.world.graph.given['bio'], [f'{it.number} ({it.phase})' for it in self.world.bios.values()]
        yield f'requests made so far: {made}; those that are not done with: {cut(", ".join(out)) or "none"}'

    def waited_for(self, actor: int) -> Iterator[str]:
        """What the next command of an actor waits for."""
        left = self.world.left[actor]
        if left:
            yield f'its next command is {self.shown_line(left[0].line)}'
        own = self.world.out_of(actor)
        if own:
            yield f'it has out: {self.request_text(own)}: {self.phase_text(own)}'

    def of_tastes(self) -> Iterator[str]:
        if self.world.taste:
            yield self.taste_text(self.world.taste)
        else:
            yield from self.last_taste

    def left(self) -> Iterator[str]:
        """What is left to do of a mesh that isn't at rest."""
        world = self.world
        for name, commands in zip(self.trace.plan.actors, world.left):
            if commands:
                yield f'{name} has {len(commands)} of its commands left, from {self.shown_line(commands[0].line)}'
        for bio in world.bios.values():
            yield f'{self.request_text(bio)}: {self.phase_text(bio)}'
        if world.events:
            yield 'queued: ' + '; '.join(f'{kind} of {provider.name}' for kind, provider in world.events)
        if world.taste:
            yield self.taste_text(world.taste)
        handle, part = world.to_reap(), world.to_wash()
        if handle:
            yield f"a dead handle is to be reaped: {self.trace.plan.actors[handle.actor]}'s {handle.name}"
        if part:
            yield f'to be washed: {type(part).__name__.lower()} {part_name(part)}'
        yield from self.possible()


def part_name(part: object) -> str:
    """A part of a withering geom: its own name, or for a consumer its geom's and where it is attached."""
    name = getattr(part, 'name', None)
    return name if name else f'of {part.geom.kind} {part.geom.name} at {part.provider.name}'


def cut(text: str, room: int = 96) -> str:
    return text if len(text) <= room else text[:room - 3] + ' ..'
