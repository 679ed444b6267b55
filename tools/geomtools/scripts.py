"""Scripts as they are read where nothing is wrong about them; `grammar` finds what is."""
import collections

Command = collections.namedtuple('Command', 'line actor words')
Declared = collections.namedtuple('Declared', 'name sector sectors later is_image')


class Plan:
    """The disks, actors and commands of a script. An image has the sectors that `sizes` gives for its name, or None."""

    def __init__(self, text, sizes=()):
        self.disks, self.actors, self.commands = [], [], []
        for number, line in enumerate(text.split('\n'), 1):
            words = line.split()
            if not words or line.startswith('#'):
                continue
            if words[0] in ('ram', 'disk'):
                is_image, later = words[0] == 'disk', words[-1] == 'later'
                sectors = dict(sizes).get(words[1]) if is_image else int(words[3])
                self.disks.append(Declared(words[1], int(words[2]), sectors, later, is_image))
            elif words[0] == 'actor':
                self.actors.append(words[1])
            else:
                self.commands.append(Command(number, self.actors.index(words[0]), words[1:]))
