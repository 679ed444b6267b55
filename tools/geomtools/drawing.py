"""What is drawn at random: bytes, orders, and scripts of every kind of command."""
import collections

from geomtools import runs as texts, tables
from geomtools.limits import MAX_REQUEST_BYTES

KINDS = ('mbr', 'ebr', 'label', 'concat', 'stripe', 'nop')
COUNTS = ('r1w1e0',) * 4 + ('r1w0e0', 'r0w1e0', 'r1w0e1', 'r1w1e1', 'r0w0e1', 'r2w1e0')


def runs(draw, size):
    """So many bytes, as one to three runs."""
    cuts = sorted({0, size, draw.randrange(size), draw.randrange(size)})
    data = b''.join(bytes([draw.randrange(256)]) * (b - a) for a, b in zip(cuts, cuts[1:]))
    return texts.runs_text(data)


def mixed(draw, lists):
    """The items of lists, each list in its order."""
    left, out = [list(reversed(it)) for it in lists if it], []
    while left:
        one = draw.choice(left)
        out.append(one.pop())
        left = [it for it in left if it]
    return out


# Names of providers have at most 63 bytes, and `.nop` or the number of a slice may come behind.
NAME_ROOM = 56
# A provider that is believed to stand: its bytes, those of its sectors, the class and the name of its geom, and on what
# it stands.
Stands = collections.namedtuple('Stands', 'size sector kind geom parts')


class Drawer:
    """Draws the lines of a script. It keeps what it believes to stand, which may be wrong, since it doesn't know the
    answers. Each deed gives some commands of an actor."""

    def __init__(self, draw, disks, actors):
        self.draw, self.made, self.deeds = draw, 0, DEEDS
        sector = draw.choice((512, 512, 512, 4096))
        self.disks = {f'md{k}': Stands(draw.randrange(8, 65) * sector, sector, 'disk', '', ()) for k in range(disks)}
        self.later = {name for name in list(self.disks)[1:] if draw.random() < 0.15}
        self.providers = {name: it for name, it in self.disks.items() if name not in self.later}
        self.actors = [f'a{k}' for k in range(actors)]
        self.handles = {actor: {} for actor in self.actors}

    def header(self):
        for name, it in self.disks.items():
            yield f'ram {name} {it.sector} {it.size // it.sector}' + ' later' * (name in self.later)
        yield from (f'actor {name}' for name in self.actors)

    def commands(self, count):
        """So many lines of commands: deeds of some actors at a time, mixed."""
        lines = []
        while len(lines) < count:
            actors = self.draw.sample(self.actors, self.draw.randint(1, min(3, len(self.actors))))
            deeds = [[f'{actor} {it}' for it in self.draw.choice(self.deeds)(self, actor)] for actor in actors]
            lines += mixed(self.draw, deeds)
        return lines[:count]

    # What is believed

    def stand(self, name, size, kind, geom, *parts):
        """A provider stands on these, if they do and its name leaves room for more."""
        if len(name) < NAME_ROOM and all(it in self.providers for it in parts):
            self.providers[name] = Stands(size, self.providers[parts[0]].sector, kind, geom, parts)

    def fall(self, name):
        """The provider goes, and all that stands on it."""
        self.providers.pop(name, None)
        for other in [other for other, it in self.providers.items() if name in it.parts]:
            self.fall(other)

    def new_name(self):
        self.made += 1
        return f'n{self.made}'

    def some_geom(self, kinds):
        """The class and the name of a geom of such a class, mostly of one that stands."""
        stand = [(it.kind, it.geom) for it in self.providers.values() if it.kind in kinds]
        is_odd = not stand or self.draw.random() < 0.2
        return (self.draw.choice(kinds), self.new_name()) if is_odd else self.draw.choice(stand)

    def provider(self):
        return self.draw.choice(list(self.providers or self.disks))

    def some_providers(self):
        names = list(self.providers or self.disks)
        return self.draw.sample(names, self.draw.randint(1, min(3, len(names))))

    def shape(self, name):
        """The size and the sector of a provider."""
        return (self.providers.get(name) or next(iter(self.disks.values())))[:2]

    def free_handle(self, actor):
        """A handle that isn't open, if there is one."""
        names = [f'h{k}' for k in range(6)]
        free = [name for name in names if name not in self.handles[actor]]
        return self.draw.choice(free or names)

    # Single commands

    def open(self, actor, handle, provider, counts):
        self.handles[actor][handle] = provider
        return f'open {handle} {provider} {counts}'

    def close(self, actor, handle):
        self.handles[actor].pop(handle, None)
        return f'close {handle}'

    def request(self, actor, handle):
        size, sector = self.shape(self.handles[actor].get(handle))
        length = sector * self.draw.randint(1, min(8, size // sector))
        offset = sector * self.draw.randint(0, (size - length) // sector)
        if self.draw.random() < 0.1:
            offset, length = self.draw.choice(((offset + 1, length), (size, length), (offset, 1),
                                               (offset, MAX_REQUEST_BYTES), (0, MAX_REQUEST_BYTES + sector)))
        word = self.draw.choice(('read', 'read', 'write', 'write', 'delete', 'flush'))
        if word == 'flush':
            return f'flush {handle}'
        return f'{word} {handle} {offset} {runs(self.draw, length) if word == "write" else length}'

    # Deeds

    def use(self, actor):
        """Requests through a handle, which is closed or stays open."""
        handle = self.free_handle(actor)
        yield self.open(actor, handle, self.provider(), self.draw.choice(COUNTS))
        for _ in range(self.draw.randint(1, 5)):
            yield self.request(actor, handle)
        if self.draw.random() < 0.7:
            yield from self.draw.choice(((), ('sync',)))
            yield self.close(actor, handle)

    def window(self, actor):
        """A window on a provider."""
        provider = self.provider()
        size, sector = self.shape(provider)
        first = self.draw.randrange(size // sector)
        inside = sector * self.draw.randint(1, size // sector - first)
        yield f'nop {provider} {sector * first} {inside} {self.draw.choice((0, 0, 3, 5))}'
        self.stand(f'{provider}.nop', inside, 'nop', f'{provider}.nop', provider)

    def join(self, actor):
        """A concat or a stripe, by a command."""
        word, parts, name = self.draw.choice(('concat', 'stripe')), self.some_providers(), self.new_name()
        sizes, sector = [self.shape(it)[0] for it in parts], self.shape(parts[0])[1]
        strip = sector * self.draw.choice((1, 2, 4))
        yield f'{word} {name} {f"{strip} " if word == "stripe" else ""}{" ".join(parts)}'
        size = sum(sizes) if word == 'concat' else len(parts) * (min(sizes) // strip * strip)
        if size:
            self.stand(f'{word}/{name}', size, word, name, *parts)

    def label(self, actor):
        """A label, which is found when the handle closes."""
        handle, provider, name = self.free_handle(actor), self.provider(), self.new_name()
        size, sector = self.shape(provider)
        yield self.open(actor, handle, provider, 'r0w1e0')
        yield f'{self.draw.choice(("label", "relabel"))} {handle} {name}'
        yield self.close(actor, handle)
        if size > sector:
            self.stand(f'label/{name}', size - sector, 'label', provider, provider)

    def record(self, actor):
        """The records of a concat or a stripe, in any order."""
        kind, parts, name = self.draw.choice(('concat', 'stripe')), self.some_providers(), self.new_name()
        number, sector = self.draw.randrange(1000), self.shape(parts[0])[1]
        strip = f' {sector * self.draw.choice((1, 2))}' if kind == 'stripe' else ''
        for place in self.draw.sample(range(len(parts)), len(parts)):
            handle = self.free_handle(actor)
            yield self.open(actor, handle, parts[place], 'r0w1e0')
            yield f'mark {handle} {kind} {name} {number} {place} {len(parts)}{strip}'
            yield self.close(actor, handle)
        if all(self.shape(it)[0] > 2 * sector for it in parts):
            self.stand(f'{kind}/{name}', sector * len(parts), kind, name, *parts)

    def table(self, actor):
        """A partition table, whose first slice may have a chain of logical partitions."""
        handle, provider = self.free_handle(actor), self.provider()
        if provider in self.providers and self.providers[provider].kind == 'mbr':
            provider = self.providers[provider].geom
        size, sector = self.shape(provider)
        first, count = self.draw.randint(1, 3), self.draw.randint(4, max(5, size // 512 - 3))
        entries = [(self.draw.choice((0x05, 0xA5)), first, count), (self.draw.choice((0, 0xA5)), 2, 2)]
        yield self.open(actor, handle, provider, 'r1w1e0')
        yield f'write {handle} 0 {texts.runs_text(tables.table(entries).ljust(sector, bytes(1)))}'
        links = (0, 2)[:self.draw.randint(0, 2)] if sector == 512 else ()
        for link in links:
            onward = (0x05, 2, 1) if link == 0 and len(links) > 1 else (0, 0, 0)
            yield f'write {handle} {512 * (first + link)} {texts.runs_text(tables.table([(0xA5, 1, 1), onward]))}'
        yield self.close(actor, handle)
        if sector == 512 and first + count <= size // 512:
            self.stand(f'{provider}s1', 512 * count, 'mbr', provider, provider)
            for link in links:
                self.stand(f'{provider}s1l{1 + link // 2}', 512, 'ebr', f'{provider}s1', f'{provider}s1')

    def move(self, actor):
        """A disk comes or goes."""
        name = self.draw.choice(list(self.disks))
        if name in self.providers and self.draw.random() < 0.9 or self.draw.random() < 0.1:
            yield f'pull {name}'
            self.fall(name)
        else:
            yield f'insert {name}'
            self.providers.setdefault(name, self.disks[name])

    def destroy(self, actor):
        """A geom goes that isn't a disk."""
        kind, geom = self.some_geom(KINDS)
        yield f'destroy {kind} {geom}'
        for name in [name for name, it in self.providers.items() if (it.kind, it.geom) == (kind, geom)]:
            self.fall(name)

    def append(self, actor):
        """A concat grows."""
        yield f'append {self.some_geom(("concat",))[1]} {self.provider()}'

    def wait(self, actor):
        yield self.draw.choice(('settle', 'sync', 'mesh'))

    def end(self, actor):
        """Some handles are closed, or used once more."""
        for _ in range(self.draw.randint(1, 3)):
            handle = self.draw.choice(list(self.handles[actor]) or ['h0'])
            yield self.close(actor, handle) if self.draw.random() < 0.7 else self.request(actor, handle)


# Those that stand here twice are drawn twice as often.
DEEDS = (Drawer.use, Drawer.use, Drawer.use, Drawer.use, Drawer.window, Drawer.join, Drawer.join, Drawer.label,
         Drawer.record, Drawer.table, Drawer.move, Drawer.destroy, Drawer.append, Drawer.wait, Drawer.end, Drawer.end)
