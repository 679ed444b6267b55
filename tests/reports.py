"""What a report has to be where the order of the steps isn't known: a reply for each command, of its form; the replies
of an actor, by what its own replies before them did; and a mesh in which counts are what is open."""
import re

from shared import model, reports as printed, runs

COMMON = 'EBADF ENXIO EPERM EINVAL EIO'
# The errors of each command.
ERRORS = {
    'open': 'EEXIST ENOENT ENXIO EPERM EOVERFLOW', 'close': 'EBADF EBUSY', 'read': COMMON, 'write': COMMON,
    'delete': COMMON, 'flush': COMMON, 'sync': '', 'settle': '', 'mesh': '', 'insert': 'ENOENT EBUSY EEXIST',
    'pull': 'ENOENT ENXIO', 'nop': 'ENOENT ENXIO EEXIST EINVAL EDEEP', 'destroy': 'ENOENT EBUSY',
    'concat': 'EEXIST ENOENT ENXIO EINVAL EDEEP', 'stripe': 'EEXIST ENOENT ENXIO EINVAL EDEEP',
}
REQUESTS = ('read', 'write', 'delete', 'flush')
RUNS = re.compile(r'[0-9a-f]{2}\*[1-9][0-9]*( [0-9a-f]{2}\*[1-9][0-9]*)*')


def mesh_faults(geoms, handles):
    """What is wrong about a mesh at rest, from which nothing was pulled or destroyed, with these open handles as
    (provider, counts)."""
    providers = {it.name: (geom, it.counts) for geom in geoms for it in geom.providers}
    for geom in geoms:
        wanted = model.total(it.counts for it in geom.providers)
        extra = (0, 0, 1) if geom.kind != 'NOP' and any(wanted) else (0, 0, 0)
        for below, counts in geom.consumers:
            if counts != model.total([wanted, extra]):
                yield f'geom {geom.name} wants {counts} of {below}'
        ranks = [providers[below][0].rank if below in providers else None for below, _ in geom.consumers]
        if None in ranks or geom.rank != 1 + max(ranks, default=0):
            yield f'geom {geom.name} has rank {geom.rank} over {ranks}'
    for name, (_, counts) in providers.items():
        wants = [c for geom in geoms for below, c in geom.consumers if below == name]
        wants += [c for provider, c in handles if provider == name]
        if counts != model.total(wants):
            yield f'provider {name} has {counts}, not the sum of {wants}'
        if any(one[1] and other[2] for k, one in enumerate(wants) for j, other in enumerate(wants) if j != k):
            yield f"a writer of {name} beside another's exclusive right"


class Actor:
    """What an actor's replies up to now tell: its open handles, and those with requests that may be out."""

    def __init__(self):
        self.handles, self.out = {}, set()

    def fault(self, sector, words, reply):
        """Why this can't be the next reply of the actor, to a command of these words."""
        word, *more = words
        error = '' if reply.startswith('ok') else reply
        if error and error not in ERRORS[word].split():
            return 'no answer to such a command'
        if word in REQUESTS or word == 'close':
            if (error == 'EBADF') != (more[0] not in self.handles):
                return 'the actor has the handle' if error else 'the actor has no such handle'
        if word in REQUESTS:
            return self.request_fault(sector, word, more, reply)
        if reply != 'ok' and not error and word != 'mesh':
            return 'too much behind ok'
        return getattr(self, 'note_' + word, lambda *_: None)(more, error)

    def request_fault(self, sector, word, more, reply):
        if reply == 'EBADF':
            return None
        self.out.add(more[0])
        may = self.handles[more[0]][1][0 if word == 'read' else 1]
        if reply == 'EPERM' if may else reply not in ('EPERM', 'ENXIO'):
            return 'the handle has the right' if may else "the handle hasn't the right"
        length = 0 if word == 'flush' else len(runs.bytes_of_runs(more[2:])) if word == 'write' else int(more[2])
        is_odd = word != 'flush' and (int(more[1]) % sector or length % sector or not 0 < length <= 32768)
        if reply == 'EINVAL' and not is_odd:
            return 'the range is in whole sectors'
        if not reply.startswith('ok'):
            return None
        told = reply[3:]
        if is_odd or word != 'read' and reply != 'ok':
            return 'too much behind ok' if not is_odd else "the range isn't in whole sectors"
        if word == 'read' and (not RUNS.fullmatch(told) or len(runs.bytes_of_runs(told.split())) != length
                               or runs.runs_text(runs.bytes_of_runs(told.split())) != told):
            return "not the bytes that were asked for"
        return None

    def note_open(self, more, error):
        handle, provider, counts = more
        if (error == 'EEXIST') != (handle in self.handles):
            return "the actor hasn't this handle" if error else 'the actor has this handle'
        if not error:
            self.handles[handle] = provider, tuple(int(counts[k]) for k in (1, 3, 5))
        return None

    def note_close(self, more, error):
        if error == 'EBUSY' and more[0] not in self.out:
            return 'no request of the handle can be out'
        if not error:
            del self.handles[more[0]]
            self.out.discard(more[0])
        return None

    def note_sync(self, more, error):
        self.out.clear()

    note_settle = note_sync


def is_changing(plan):
    """Whether names may come and go, or the mesh at the end can't be told from that of the last command."""
    words = [command.words[0] for command in plan.commands]
    return 'pull' in words or 'destroy' in words or words[-1:] == ['mesh']


def faults(plan, text):
    """What can't be in a report of this plan."""
    found = printed.replies_of(plan, text.splitlines())
    if not found:
        return ['not one reply for each command, in the order of the lines']
    replies, last = found
    told, actors = [], [Actor() for _ in plan.actors]
    for command, reply, mesh in replies:
        if mesh and printed.geoms_of(mesh) is None:
            told.append(f'line {command.line}: not a mesh')
        why = actors[command.actor].fault(plan.disks[0].sector, command.words, reply)
        if why:
            told.append(f'line {command.line}, {reply[:60]!r}: {why}')
    geoms = printed.geoms_of(last)
    if geoms is None:
        told.append('the mesh at the end has another form')
    elif not is_changing(plan):
        told += mesh_faults(geoms, [it for actor in actors for it in actor.handles.values()])
    return told
