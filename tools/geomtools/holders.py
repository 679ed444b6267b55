"""Who holds what, as the script and its answers tell it line by line: open handles, and what stands on what."""
import collections, copy, re

from geomtools.reports import opened_counts

Handle = collections.namedtuple('Handle', 'actor name provider counts line')
# What an opening would hold somewhere: the provider, the geom above by which it comes there, or None where it is the
# handle itself, and whether it writes there, and excludes others from writing.
Hold = collections.namedtuple('Hold', 'provider above writes excludes')

SLICE = re.compile(r'((.+)[sl])[1-9]\d?')


class Holders:
    """What is open, and what stands on what, after the lines that were noted."""

    def __init__(self, disks):
        self.disks, self.parts, self.handles, self.dead = set(disks), {}, {}, set()

    def below(self, provider):
        """The providers on which this one stands, as far as is told: by commands, or by the name of a slice."""
        if provider in self.disks:
            return []
        found = SLICE.fullmatch(provider)
        return self.parts.get(provider, [found[2]] if found else [])

    def geom(self, provider):
        """A name for the geom of a provider. The slices of one table have one geom."""
        found = None if provider in self.parts else SLICE.fullmatch(provider)
        return found[1] if found else provider

    def holds(self, provider, counts, above=None):
        """What an opening with these counts would hold, from the provider down."""
        todo, found = collections.deque([Hold(provider, above, counts[1] > 0, counts[2] > 0)]), {}
        while todo:
            hold = todo.popleft()
            if hold not in found:
                found[hold] = True
                is_window = hold.provider.endswith('.nop')
                todo += [Hold(part, self.geom(hold.provider), hold.writes, hold.excludes or not is_window)
                         for part in self.below(hold.provider)]
        return list(found)

    def with_component(self, name, provider):
        """The same as if a concat had one more component."""
        other, concat = copy.copy(self), f'concat/{name}'
        other.parts = {**self.parts, concat: [*self.below(concat), provider]}
        return other

    def holds_of_component(self, name, provider):
        """What a concat holds by one of its components, which is nothing while it isn't open."""
        concat = f'concat/{name}'
        above = [hold for _, holds in self.live() for hold in holds if hold.provider == concat]
        return self.holds(provider, (0, any(hold.writes for hold in above), 1), concat) if above else []

    def held_twice(self, holds):
        """The providers to which a writer would come by two ways at once, so that it stands in its own way."""
        geoms = {self.geom(hold.provider): self.below(hold.provider) for hold in holds if hold.writes}
        geoms.update((hold.above, self.parts[hold.above]) for hold in holds if hold.writes and hold.above in self.parts)
        ways = collections.Counter(part for parts in geoms.values() for part in parts)
        return [name for name, count in ways.items() if count > 1]

    def live(self):
        """The handles that hold something, and what they hold."""
        return [(handle, self.holds(handle.provider, handle.counts)) for key, handle in self.handles.items()
                if key not in self.dead]

    def note(self, actor, line, words):
        """Notes the command of a line that was answered ok."""
        act = getattr(self, 'note_' + words[0], None)
        if act:
            act(actor, line, *words[1:])

    def note_open(self, actor, line, name, provider, counts):
        self.handles[actor, name] = Handle(actor, name, provider, opened_counts(counts), line)

    def note_close(self, actor, line, name):
        self.handles.pop((actor, name), None)
        self.dead.discard((actor, name))

    def note_concat(self, actor, line, name, *parts):
        self.parts[f'concat/{name}'] = list(parts)

    def note_stripe(self, actor, line, name, strip, *parts):
        self.parts[f'stripe/{name}'] = list(parts)

    def note_nop(self, actor, line, provider, *_):
        self.parts[f'{provider}.nop'] = [provider]

    def note_append(self, actor, line, name, provider):
        self.parts.setdefault(f'concat/{name}', []).append(provider)

    def note_label(self, actor, line, name, label):
        self.note_record(f'label/{label}', actor, name)

    note_relabel = note_label

    def note_mark(self, actor, line, name, kind, joined, *_):
        self.note_record(f'{kind}/{joined}', actor, name)

    def note_record(self, provider, actor, name):
        """A label or a record was written through a handle: its provider may come to stand on that of the handle."""
        parts, handle = self.parts.setdefault(provider, []), self.handles.get((actor, name))
        if handle and handle.provider not in parts:
            parts.append(handle.provider)

    def note_destroy(self, actor, line, kind, geom):
        self.parts.pop(geom if kind == 'nop' else f'{kind}/{geom}', None)

    def note_pull(self, actor, line, disk):
        """Handles on a pulled disk die, and hold nothing any more."""
        self.dead |= {(handle.actor, handle.name) for handle, holds in self.live()
                      if any(hold.provider == disk for hold in holds)}


def stand_against(ours, theirs):
    """Whether what two openings hold can't be together: a writer of one beside an exclusive right of the other. What
    comes by the same geom above is held once for both."""
    return any(one.provider == other.provider and (one.above is None or one.above != other.above)
               and (one.writes and other.excludes or one.excludes and other.writes)
               for one in ours for other in theirs)


def meet(ours, theirs):
    return not {hold.provider for hold in ours}.isdisjoint(hold.provider for hold in theirs)
