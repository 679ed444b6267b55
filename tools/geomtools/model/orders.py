"""Orders in which one thread makes the steps, and runs of whole plans. An order is a function of a mesh and of the
heads of its disks, which gives the next step, or None at rest."""
from __future__ import annotations

import itertools, random
from typing import Callable, List, Optional, Sequence, Tuple

from geomtools.model.disks import Disks
from geomtools.model.mesh import Mesh
from geomtools.model.steps import Step
from geomtools.model.world import DOWN, SENT, UP, Bio
from geomtools.scripts import Plan

Order = Callable[[Mesh, Sequence[int]], Optional[Step]]
Made = List[Tuple[int, Step]]
# How often a disk fails in a history that is drawn.
FAILS = 0.05


def first(mesh: Mesh, phase: str, word: str) -> Optional[Step]:
    return next(((word, it.number) for it in mesh.world.bios.values() if it.phase == phase), None)


def of_word(mesh: Mesh, word: str) -> Optional[Step]:
    return (word,) if mesh.is_enabled(0, (word,)) else None


def next_go(mesh: Mesh) -> Optional[Step]:
    """The Go of the actor whose next line is the smallest among those that can go."""
    ready = [(left[0].line, actor) for actor, left in enumerate(mesh.world.left) if mesh.is_enabled(0, ('go', actor))]
    return ('go', min(ready)[1]) if ready else None


def first_take(mesh: Mesh) -> Optional[Step]:
    busy = {mesh.world.disk_of(it) for it in mesh.world.bios.values() if it.phase == 'Busy'}
    ready = ((mesh.world.disk_of(it), it.number) for it in mesh.world.bios.values() if it.phase == SENT)
    return next((('take', disk, number) for disk, number in ready if disk not in busy), None)


def fixed(mesh: Mesh, heads: Sequence[int]) -> Optional[Step]:
    """The fixed order, in which each line has run to its end before the next starts."""
    return (first(mesh, UP, 'up') or first_take(mesh) or first(mesh, DOWN, 'start') or of_word(mesh, 'judge')
            or of_word(mesh, 'event') or of_word(mesh, 'reap') or of_word(mesh, 'wash') or next_go(mesh))


def waiting(mesh: Mesh, disk: int) -> list[Bio]:
    """What may be taken next of a disk: a FLUSH in front alone, else all that stands before the first FLUSH."""
    sent = [it for it in mesh.world.bios.values() if it.phase == SENT and mesh.world.disk_of(it) == disk]
    if sent and sent[0].cmd == 'flush':
        return sent[:1]
    return list(itertools.takewhile(lambda it: it.cmd != 'flush', sent))


def elevator_take(mesh: Mesh, heads: Sequence[int]) -> Optional[Step]:
    """The first disk for which something waits takes what begins at or above its head, the lowest first; where all is
    below the head, it begins again with the lowest. Of several at one place the oldest is the first."""
    for disk in range(len(mesh.plan.disks)):
        choice = [(it.offset // it.target.sector, it.number) for it in waiting(mesh, disk)]
        if choice:
            return ('take', disk, min([item for item in choice if item[0] >= heads[disk]] or choice)[1])
    return None


def sweep(mesh: Mesh, heads: Sequence[int]) -> Optional[Step]:
    """The elevator order: commands come before what the disks do."""
    return (first(mesh, UP, 'up') or first(mesh, DOWN, 'start') or of_word(mesh, 'judge') or of_word(mesh, 'event')
            or next_go(mesh) or elevator_take(mesh, heads) or of_word(mesh, 'reap') or of_word(mesh, 'wash'))


def run(plan: Plan, order: Order, disks: Optional[Disks] = None) -> tuple[Mesh, Made, list[bytearray]]:
    """One seat makes the steps of an order. Gives the mesh at rest, the steps as (seat, step), and what the disks hold,
    which are of zeros where none are given."""
    mesh, disks, steps = Mesh(plan), disks or Disks(plan), []
    finish(mesh, order, disks, steps)
    return mesh, steps, disks.held


def finish(mesh: Mesh, order: Order, disks: Disks, steps: Made) -> None:
    """Seat 0 makes and notes the steps of an order until the mesh is at rest, each Take followed by its Deliver."""
    heads = [0] * len(mesh.plan.disks)
    while True:
        step = order(mesh, heads)
        if step is None:
            return
        due = [step]
        if step[0] == 'take':
            bio = mesh.world.bios[step[2]]
            if bio.cmd != 'flush':
                heads[step[1]] = bio.offset // bio.target.sector
            due.append(('deliver', bio.number, disks.serve(step[1], bio)))
        for one in due:
            mesh.make(0, one)
            steps.append((0, one))


def run_anyhow(plan: Plan, draw: random.Random, disks: Optional[Disks] = None) -> tuple[Mesh, Made]:
    """Seats make whatever is possible, and disks fail now and then: a history as threads could make it."""
    mesh, disks, steps, taken = Mesh(plan), disks or Disks(plan), [], []
    while True:
        choice = [(draw.randrange(4), step) for step in mesh.possible()] + taken
        if not choice:
            return mesh, steps
        seat, step = one = draw.choice(choice)
        if one in taken:
            taken.remove(one)
        mesh.make(seat, step)
        steps.append(one)
        if step[0] == 'take':
            bio = mesh.world.bios[step[2]]
            got = ('failed', 0) if draw.random() < FAILS else disks.serve(step[1], bio)
            taken.append((seat, ('deliver', bio.number, got)))
