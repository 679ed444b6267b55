"""Scripts that are drawn, of requests that are out together and of many actors. Each has its text, and its images as
bytes, by their names."""
from shared import drawing, scripts

COUNTS = ('r1w1e0',) * 8 + ('r1w0e0', 'r1w0e0', 'r0w1e0', 'r1w0e1', 'r2w1e1')


def plan_of(script):
    """The plan of a script that was drawn."""
    sectors = {disk.name: disk.sector for disk in scripts.Plan(script.text()).disks}
    return scripts.Plan(script.text(), {name: len(data) // sectors[name] for name, data in script.images.items()})


class Script:
    """A script that is drawn line by line. Mostly it asks what can be done, so that much is out at once."""

    MOST = 40  # fewer requests than that have a part
    SECTORS = (512, 512, 512, 4096)

    def __init__(self, draw):
        self.draw = draw
        self.header(disks=(2, 5), actors=(1, 4))
        for _ in range(draw.randrange(3)):
            self.make()
        for _ in range(draw.randrange(2, 7)):
            self.part()

    def header(self, disks, actors):
        """Disks and actors, as many as are drawn of these ranges."""
        draw = self.draw
        self.lines, self.opened = [], []
        self.sector, count = draw.choice(self.SECTORS), draw.randrange(*disks)
        self.actors = ['a%d' % k for k in range(draw.randrange(*actors))]
        self.disks = ['md%d' % k for k in range(count)]
        sectors = {name: draw.randrange(8, 40) for name in self.disks}
        self.images = {name: self.image(name, sectors[name]) for name in self.disks if draw.random() < 0.2}
        for name in self.disks:
            self.lines.append('disk %s %d' % (name, self.sector) if name in self.images
                              else 'ram %s %d %d' % (name, self.sector, sectors[name]))
        self.lines[-1] += draw.choice(('', '', '', ' later'))
        self.lines += ['actor ' + name for name in self.actors]
        self.tops = list(self.disks)

    def image(self, name, sectors):
        """An image whose sectors have a byte each."""
        return b''.join(bytes([(31 * k + ord(name[-1])) % 251]) * self.sector for k in range(sectors))

    def text(self):
        return '\n'.join(self.lines) + '\n'

    def say(self, text, actor=None):
        self.lines.append('%s %s' % (actor or self.draw.choice(self.actors), text))

    def new_name(self):
        return 'g%d' % len(self.lines)

    def some_name(self):
        """The name that a geom may have."""
        return 'g%d' % self.draw.randrange(12)

    def make(self):
        """A geom over some of those that nothing stands on."""
        draw = self.draw
        parts = draw.sample(self.tops, draw.randrange(1, min(4, len(self.tops)) + 1))
        what, name = draw.choice(('stripe', 'stripe', 'concat', 'nop')), self.new_name()
        if what == 'nop':
            parts = parts[:1]
            self.say('nop %s %d %d %d' % (parts[0], self.sector * draw.randrange(3), self.sector * 6,
                                          draw.choice((0, 0, 5, 7))))
        else:
            strip = '%d ' % (self.sector * draw.randrange(1, 4)) if what == 'stripe' else ''
            self.say('%s %s %s%s' % (what, name, strip, ' '.join(parts)))
        self.tops = [top for top in self.tops if top not in parts]
        self.tops.append(parts[0] + '.nop' if what == 'nop' else '%s/%s' % (what, name))

    def open(self):
        draw, actor, handle = self.draw, self.draw.choice(self.actors), 'h%d' % len(self.opened)
        self.opened.append((actor, handle))
        provider = draw.choice(self.tops if draw.random() < 0.9 else self.disks)
        self.say('open %s %s %s' % (handle, provider, draw.choice(COUNTS)), actor)

    def request(self):
        draw, (actor, handle) = self.draw, self.draw.choice(self.opened[-4:])
        word, at = draw.choice(('read', 'read', 'write', 'write', 'write', 'delete', 'flush')), draw.randrange(16)
        size = self.sector * draw.randrange(1, min(9, 32768 // self.sector))
        what = drawing.runs(draw, size) if word == 'write' else size
        ask = '%s %s %d %s' % (word, handle, self.sector * at, what)
        self.say('flush ' + handle if word == 'flush' else ask, actor)

    def part(self):
        """Some opens, many requests, and then what lets them be done, or disturbs them."""
        draw = self.draw
        for _ in range(draw.randrange(1, 4)):
            self.open()
        for _ in range(draw.randrange(3, self.MOST)):
            self.request()
        for _ in range(draw.randrange(4)):
            actor, handle = draw.choice(self.opened)
            self.say(draw.choice(('sync', 'sync', 'settle', 'mesh', 'close ' + handle, 'close ' + handle,
                                  'pull ' + draw.choice(self.disks), 'insert ' + draw.choice(self.disks),
                                  'destroy stripe ' + self.some_name())), actor)


class Crowd(Script):
    """A script of two to six actors whose lines are mixed. Each makes geoms, opens handles and sends requests, mostly
    over a disk of its own, or over several, which others use too; it waits now and then, and pulls or destroys what
    others stand on."""
    MOST = 12

    def __init__(self, draw):
        self.draw = draw
        self.header(disks=(1, 6), actors=(2, 7))
        front, actors = self.lines, self.actors
        each = [self.lines_of(actor) for actor in actors]
        self.lines, self.actors = front + drawing.mixed(draw, each), actors

    def lines_of(self, actor):
        draw = self.draw
        self.lines, self.actors, self.opened = [], [actor], []
        own = self.disks[int(actor[1:]) % len(self.disks)]
        self.tops = [own] if draw.random() < 0.6 else draw.sample(self.disks, draw.randrange(1, len(self.disks) + 1))
        if draw.random() < 0.1:
            self.say(draw.choice(('sync', 'settle')))
        for _ in range(draw.choice((0, 0, 1, 2))):
            self.make()
        for _ in range(draw.randrange(1, 4)):
            self.part()
            if draw.random() < 0.5:
                self.say('sync')
        return self.lines

    def new_name(self):
        return 'g%s%d' % (self.actors[0][1:], len(self.lines))

    def some_name(self):
        return 'g%d%d' % (self.draw.randrange(6), self.draw.randrange(3))


class Flood(Crowd):
    """The same, and one actor has so many pieces of requests out at once that a lane of 1,024 tickets can't hold them.
    A ticket that is dropped leaves its step to seat 0."""
    SECTORS = (512,)

    def header(self, disks, actors):
        super().header(disks, actors)
        self.lines[:0] = ['ram f0 512 64', 'ram f1 512 64']

    def lines_of(self, actor):
        lines, draw = super().lines_of(actor), self.draw
        if actor == 'a0':
            lines += ['a0 stripe flood 512 f0 f1', 'a0 open hf stripe/flood r1w1e0']
            for _ in range(24):
                at, word = 512 * draw.randrange(64), draw.choice(('read', 'write', 'delete'))
                lines.append('a0 %s hf %d %s' % (word, at, drawing.runs(draw, 32768) if word == 'write' else 32768))
            lines += ['a0 sync', 'a0 close hf']
        return lines
