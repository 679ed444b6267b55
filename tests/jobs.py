"""The jobs of a run in threads: which seat makes which steps, and what their log has to be.

With n actors the client of actor a has seat a + 1, the event worker n + 1, the down worker n + 2, the up worker n + 3,
and the disk workers n + 4 and n + 5, to which the disks belong in turn. Once the jobs have ended seat 0 makes what is
left, in the fixed order.
"""
from shared import model

EVENT_STEPS = (('judge',), ('event',), ('reap',), ('wash',))
WAITS = ('sync', 'settle')


def event_seat(plan):
    return len(plan.actors) + 1


def disk_seats(plan):
    return event_seat(plan) + 3, event_seat(plan) + 4


def seat_of(plan, step):
    """The seat of the job that makes such a step, which isn't a Deliver."""
    word = step[0]
    if word == 'go':
        return step[1] + 1
    if word == 'take':
        return disk_seats(plan)[step[1] % 2]
    return event_seat(plan) + {'start': 1, 'up': 2}.get(word, 0)


def is_own(plan, seat, step):
    """Whether the step is of the kind of the job that has the seat."""
    return seat in disk_seats(plan) if step[0] == 'deliver' else seat == seat_of(plan, step)


class Idle:
    """Which steps of clients and of the event worker weren't possible at some moment since their seat's last entry."""

    def __init__(self, plan):
        self.tried = [(a + 1, ('go', a)) for a in range(len(plan.actors))]
        self.tried += [(event_seat(plan), step) for step in EVENT_STEPS]
        self.found = set()

    def look(self, mesh):
        self.found.update(it for it in self.tried if it not in self.found and not mesh.is_enabled(*it))

    def forget(self, seat):
        self.found = {it for it in self.found if it[0] != seat}


class Log:
    """A log that is made again, step by step, on a mesh and on what its disks hold. Each fault is told by the place of
    the step, counted from 0."""

    def __init__(self, plan, disks):
        self.plan, self.mesh, self.disks = plan, model.Mesh(plan), disks
        self.idle, self.rest, self.faults = Idle(plan), 0, []
        self.begun, self.last = set(), None
        self.idle.look(self.mesh)

    def fault(self, place, text):
        self.faults.append(f'step {place}: {text}')

    def make_all(self, steps):
        """Makes all steps that are possible, and says whether these are all."""
        first_part = next((k for k, (seat, _) in enumerate(steps) if seat == 0), len(steps))
        self.rest = len(steps) - first_part
        for place, (seat, step) in enumerate(steps):
            if place == first_part:
                self.end_jobs(place)
            if not self.mesh.is_enabled(seat, step):
                self.fault(place, "isn't possible")
                return False
            if place < first_part:
                self.judge_own(place, seat, step)
            else:
                self.judge_rest(place, seat, step)
            if step[0] == 'deliver':
                self.judge_answer(place, step)
            self.mesh.make(seat, step)
            if place < first_part:
                self.idle.look(self.mesh)
            self.last = step
        if not self.rest:
            self.end_jobs(len(steps))
        if not self.mesh.at_rest():
            self.fault(len(steps), 'not at rest')
        return True

    def judge_own(self, place, seat, step):
        """A step of the first part is of the kind of its seat."""
        if not is_own(self.plan, seat, step):
            self.fault(place, f"isn't of the job of seat {seat}")
        self.idle.forget(seat)

    def end_jobs(self, place):
        """After its last entry the event worker wasn't able to make each of its steps at some moment."""
        for step in EVENT_STEPS:
            if (event_seat(self.plan), step) not in self.idle.found:
                self.fault(place, f'the event worker ended, and {step[0]} was possible all the time')

    def judge_rest(self, place, seat, step):
        """A step of the second part is of seat 0, and the one that is due, or the Deliver of what was just taken; and
        a client left only a command at which it waited."""
        follows_take = self.last and self.last[0] == 'take' and step[:2] == ('deliver', self.last[2])
        if seat != 0:
            self.fault(place, f'is of seat {seat}, behind a step of seat 0')
        if not follows_take and model.fixed(self.mesh, None) != step:
            self.fault(place, "isn't due in the fixed order")
        if step[0] == 'go' and step[1] not in self.begun:
            self.begun.add(step[1])
            command = self.mesh.world.left[step[1]][0]
            if command.words[0] not in WAITS:
                self.fault(place, f'client {step[1]} left line {command.line}, which waits for nothing')
            if (step[1] + 1, step) not in self.idle.found:
                self.fault(place, f'client {step[1]} left line {command.line}, which was possible all the time')

    def judge_answer(self, place, step):
        """A disk answers what it holds, and doesn't fail."""
        bio = self.mesh.world.bios[step[1]]
        if self.disks.serve(self.mesh.world.disk_of(bio), bio) != step[2]:
            self.fault(place, "isn't what the disk holds")


def possible(mesh, awake, taken):
    """What these seats can do."""
    own = [(seat_of(mesh.plan, step), step) for step in mesh.possible()] + taken
    return [item for item in own if item[0] in awake]


def may_end(mesh, seat, taken):
    """Whether the job of a seat may end: it is idle, as far as that is told of it."""
    clients, event = len(mesh.plan.actors), event_seat(mesh.plan)
    if seat <= clients:
        return not mesh.is_enabled(seat, ('go', seat - 1))
    if seat == event:
        return not any(mesh.is_enabled(seat, step) for step in EVENT_STEPS)
    return all(seat != other for other, _ in taken)


def run(plan, draw, disks, absent=()):
    """A history as the jobs could make it, each of which ends at some time when it is idle, and as seat 0 ends it. The
    jobs of absent seats never begin. Gives the mesh and the steps."""
    mesh, steps, taken = model.Mesh(plan), [], []
    awake, patience = set(range(1, event_seat(plan) + 5)) - set(absent), draw.choice((0.9, 0.99, 0.999))
    while awake:
        choice = possible(mesh, awake, taken)
        if not choice or draw.random() > patience:
            seat = draw.choice(sorted(awake))
            awake -= {seat} if may_end(mesh, seat, taken) else set()
            continue
        seat, step = item = draw.choice(choice)
        if item in taken:
            taken.remove(item)
        mesh.make(seat, step)
        steps.append(item)
        if step[0] == 'take':
            bio = mesh.world.bios[step[2]]
            taken.append((seat, ('deliver', bio.number, disks.serve(step[1], bio))))
    model.finish(mesh, model.fixed, disks, steps)
    return mesh, steps
