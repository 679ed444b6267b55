"""Scripts of every command and class that are drawn, in which refusals of each kind come up."""
import io

from drawn_images import image_of
from shared import drawing, images

FULL, MOST_LETTERS, LINE_ROOM = 16, 63, 200


class Odd(drawing.Drawer):
    """Draws what a drawer does, and what is seldom done: high towers, counts that grow with each level, concats that
    grow while they are used, names that are taken, disks of several sector sizes, and one that is named as a slice."""

    def __init__(self, draw, disks, actors):
        super().__init__(draw, disks, actors)
        self.tall = 'md0'
        self.deeds += (Odd.tower, Odd.windows, Odd.wide, Odd.grow, Odd.grow, Odd.again, Odd.nowhere)
        for name in self.disks:
            if draw.random() < 0.1:
                self.change_disk(name, sector=draw.choice((512, 4096)), size=4096 * draw.randrange(1, 9))
        if draw.random() < 0.2:
            self.disks['md0s1'] = drawing.Stands(4096, 512, 'disk', '', ())
            self.later.add('md0s1')

    def change_disk(self, name, **shape):
        self.disks[name] = self.disks[name]._replace(**shape)
        if name in self.providers:
            self.providers[name] = self.disks[name]

    def name_of(self, kind):
        """The name of a geom of this class that stands, or another one."""
        found = [it.geom for it in self.providers.values() if it.kind == kind]
        return self.draw.choice(found) if found else self.new_name()

    def tower(self, actor):
        """Concats on each other, which may be too high. Somewhere one grows, or goes."""
        top, names = self.provider(), []
        for _ in range(self.draw.choice((3, 6, 9, 36))):
            kind, strip = self.draw.choice((('concat', ''), ('concat', ''), ('stripe', f'{self.shape(top)[1]} ')))
            names.append(self.new_name())
            yield f'{kind} {names[-1]} {strip}{top}'
            top = f'{kind}/{names[-1]}'
        handle, name = self.free_handle(actor), self.draw.choice(names)
        yield self.open(actor, handle, f'concat/{name}', self.draw.choice(drawing.COUNTS))
        yield self.request(actor, handle)
        tall, self.tall = self.tall, top
        yield self.draw.choice((f'append {names[0]} concat/{name}', f'append {names[0]} {tall}',
                                f'destroy concat {name}', f'concat {self.new_name()} concat/{name} concat/{names[0]}',
                                f'nop concat/{name} 0 {self.shape(top)[1]} 2'))

    def windows(self, actor):
        """Windows on windows, until no name is left."""
        name, most = self.provider(), self.draw.choice((20, MOST_LETTERS))
        size = self.shape(name)[1]
        while len(name) <= most:
            yield f'nop {name} 0 {size} {self.draw.choice((0, 0, 4))}'
            name += '.nop'
        yield self.open(actor, self.free_handle(actor), name[:MOST_LETTERS], self.draw.choice(drawing.COUNTS))

    def wide(self, actor):
        """Concats each of which stands on the one below as often as can be, so that one handle has many counts."""
        top, levels = self.provider(), self.draw.choice((2, 7, 8))
        count = FULL if levels > 2 else self.draw.choice((2, 3))
        for _ in range(levels):
            name = self.new_name()
            yield f'concat {name} {" ".join([top] * min(count, LINE_ROOM // len(top)))}'
            top = f'concat/{name}'
        handle = self.free_handle(actor)
        yield f'open {handle} {top} {self.draw.choice(("r1w0e0", "r9w0e0", "r0w1e0", "r1w0e1"))}'
        yield f'read {handle} 0 {self.shape(top)[1]}'
        yield f'append {name} {self.provider()}'
        yield f'close {handle}'

    def grow(self, actor):
        """A concat grows, by what is in use, by itself, or by more than it has room for."""
        name, handle = self.name_of('concat'), self.free_handle(actor)
        for _ in range(self.draw.choice((0, 1, 1, 2))):
            handle, provider = self.free_handle(actor), self.draw.choice((f'concat/{name}', self.provider()))
            yield self.open(actor, handle, provider, self.draw.choice(drawing.COUNTS))
            yield self.request(actor, handle)
        yield from self.draw.choice(((), ('sync',), ('settle',)))
        for _ in range(self.draw.choice((1, 1, 2, 17))):
            yield f'append {name} {self.draw.choice((self.provider(), self.provider(), f"concat/{name}"))}'
        yield self.request(actor, handle)

    def again(self, actor):
        """A name that is taken, or a geom of no use."""
        kind = self.draw.choice(('concat', 'stripe'))
        strip = f'{self.draw.choice((512, 4096, 513, 65536, 4294967295))} ' * (kind == 'stripe')
        yield f'{kind} {self.name_of(kind)} {strip}{" ".join(self.some_providers())}'

    def nowhere(self, actor):
        """Disks that aren't in the header, and one that may be there."""
        yield self.draw.choice(('insert no', 'pull no', 'insert md0', 'insert md0s1', 'insert md0s1', 'pull md0s1'))


class Whole:
    """A script of every command and class. Some of its disks are images with tables, chains and records, some of them
    odd, on whose providers it asks for this and that too."""

    def __init__(self, draw):
        self.drawer = (Odd if draw.random() < 0.6 else drawing.Drawer)(draw, draw.randint(1, 6), draw.randint(1, 5))
        self.images = {name: image_of(draw, it.sector) for name, it in self.drawer.disks.items() if draw.random() < 0.3}
        for name, data in self.images.items():
            self.note_image(name, data)
        self.lines = [*map(self.header_line, self.drawer.header()), *self.drawer.commands(draw.choice((15, 50, 120)))]

    def note_image(self, name, data):
        """The drawer hears how large the image is, and what stands on it."""
        drawer, disk = self.drawer, self.drawer.disks[name]._replace(size=len(data))
        drawer.disks[name] = disk
        found = images.Image(io.BytesIO(data), name, len(data), disk.sector).providers
        for it in found if name not in drawer.later else ():
            geom = {'MBR': it.name[:-2], 'EBR': it.name.rpartition('l')[0]}.get(it.kind, name)
            parts = (name,) if it.name != name else ()
            drawer.providers[it.name] = drawing.Stands(it.size, it.sector, it.kind.lower(), geom, parts)

    def header_line(self, line):
        word, name, *more = line.split()
        return ' '.join(['disk', name, more[0], *more[2:]]) if word == 'ram' and name in self.images else line

    def text(self):
        return '\n'.join(self.lines) + '\n'
