"""The mesh of a plan, and the nine steps: what is against each, and what it does."""
from __future__ import annotations

from typing import Iterator, Optional, Sequence

from geomtools.model import commands, events, requests, tasting
from geomtools.model.listing import mesh_lines
from geomtools.model.steps import Step
from geomtools.model.world import BUSY, DOWN, READ_OUT, SENT, UP, Bio, World
from geomtools.scripts import Command, Plan

# The phase in which a bio has to be for each step that names one.
PHASES = {'start': DOWN, 'take': SENT, 'deliver': BUSY, 'up': UP}
ALONE = ('event', 'judge', 'reap', 'wash')


class Mesh:
    """The mesh of a plan, and what was answered so far."""

    def __init__(self, plan: Plan) -> None:
        self.plan, self.commands = plan, list(plan.commands)
        actors = range(len(plan.actors))
        self.world = World(plan.disks, [[it for it in plan.commands if it.actor == actor] for actor in actors])

    def give(self, actor: int, line: int, words: Sequence[str]) -> None:
        """One more command for an actor, behind those that it has; each line is given once."""
        command = Command(line, actor, list(words))
        self.commands.append(command)
        self.world.left[actor].append(command)

    @property
    def replies(self) -> dict[int, str]:
        """The answers so far, by the lines of their commands."""
        return self.world.replies

    # What is possible

    def against(self, seat: int, step: Step) -> Optional[str]:
        """What is against a step of a seat, or None where it is possible."""
        word, named, world = step[0], step[1:], self.world
        if word == 'go':
            return self.against_go(named[0])
        if word == 'event':
            return 'a taste is under way' if world.taste else None if world.events else 'no event is queued'
        if word == 'judge':
            return self.against_judge()
        if word == 'reap':
            return None if world.to_reap() else 'no dead handle is to be reaped'
        if word == 'wash':
            return None if world.to_wash() else 'nothing of a withering geom can go'
        return self.against_bio(seat, word, *named)

    def against_go(self, actor: int) -> Optional[str]:
        world = self.world
        if actor >= len(world.left):
            return 'there is no such actor'
        if not world.left[actor]:
            return 'the actor has no command left'
        word, own = world.left[actor][0].words[0], world.out_of(actor)
        if word == 'sync' and own:
            return f'its sync waits for request {own.number}'
        return 'its settle waits' if word == 'settle' and world.is_unsettled() else None

    def against_judge(self) -> Optional[str]:
        if not self.world.taste:
            return 'no taste is under way'
        return "the taste's read is out" if self.world.taste.asked == READ_OUT else None

    def against_bio(self, seat: int, word: str, *named: object) -> Optional[str]:
        """What is against a step that names a bio: its phase, its disk, the seat, or the answer."""
        number = named[word == 'take']
        bio = self.world.bios.get(number)
        if not bio:
            made = self.world.graph.given['bio']
            return f'request {number} is done with' if 0 < number <= made else f'no request {number} was made'
        if bio.phase != PHASES[word]:
            return f'request {bio.number} is in phase {bio.phase}, not {PHASES[word]}'
        if word == 'take':
            return self.against_take(named[0], bio)
        if word == 'deliver' and bio.seat != seat:
            return f'seat {bio.seat} took request {bio.number}'
        return requests.misfit(bio, named[1]) if word == 'deliver' else None

    def against_take(self, disk: int, bio: Bio) -> Optional[str]:
        own = self.world.disk_of(bio)
        if own != disk:
            return f'request {bio.number} is to disk {own}'
        busy = self.world.busy(disk)
        return f'disk {disk} has request {busy.number}' if busy else None

    def is_enabled(self, seat: int, step: Step) -> bool:
        return self.against(seat, step) is None

    def possible(self) -> Iterator[Step]:
        """Every step that any seat could make now. A Deliver isn't among them: it is possible for the seat and the bio
        of each Take whose answer hasn't come."""
        steps: list[Step] = [('go', actor) for actor in range(len(self.world.left))] + [(word,) for word in ALONE]
        for bio in self.world.bios.values():
            if bio.phase == SENT:
                steps.append(('take', self.world.disk_of(bio), bio.number))
            elif bio.phase in (DOWN, UP):
                steps.append(('start' if bio.phase == DOWN else 'up', bio.number))
        return (step for step in steps if self.is_enabled(0, step))

    # What is done

    def make(self, seat: int, step: Step) -> str:
        """Makes a step that is possible, and says what an event or a judge came to."""
        word, named, world = step[0], step[1:], self.world
        if word == 'go':
            commands.do_command(world, world.left[named[0]].popleft())
        elif word in ('reap', 'wash'):
            (events.reap if word == 'reap' else events.wash)(world)
        elif word in ('event', 'judge'):
            return events.do_event(world) if word == 'event' else tasting.judge(world)
        else:
            self.make_of_bio(seat, word, *named)
        return ''

    def make_of_bio(self, seat: int, word: str, *named: object) -> None:
        bio = self.world.bios[named[word == 'take']]
        if word == 'take':
            bio.phase, bio.seat = BUSY, seat
        elif word == 'deliver':
            requests.deliver(bio, named[1])
        else:
            (requests.start if word == 'start' else requests.up)(self.world, bio)

    def at_rest(self) -> bool:
        return not any(self.world.left) and not self.world.is_unsettled()

    # What is printed

    def report(self) -> str:
        """What is due to be reported of the steps so far."""
        replies = self.world.replies
        answers = [f'{it.line} {replies[it.line]}' if it.line in replies else str(it.line) for it in self.commands]
        return ''.join(line + '\n' for line in [*answers, *mesh_lines(self.world)])
