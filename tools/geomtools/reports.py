"""Reports: the answer to each command, and meshes as they are printed."""
import collections, re

ERRORS = ('ENOENT', 'EEXIST', 'EBADF', 'ENXIO', 'EPERM', 'EOVERFLOW', 'EBUSY', 'EINVAL', 'EIO', 'ELOOP', 'EDEEP')
REPLY = re.compile(r'[1-9]\d* (ok( .+)?|%s)' % '|'.join(ERRORS))
COUNTS = r'r(\d+)w(\d+)e(\d+)'
GEOM = re.compile(r'geom ([A-Z]+) (\S+) rank ([1-9]\d*)( withering)?')
PROVIDER = re.compile(r'  provider (\S+) size ([1-9]\d*) sector (512|4096) ' + COUNTS + '( ENXIO)?')
CONSUMER = re.compile(r'  consumer (\S+) ' + COUNTS)

Provider = collections.namedtuple('Provider', 'name size sector counts errored')
Consumer = collections.namedtuple('Consumer', 'provider counts')
# What a command was answered, and the lines of its mesh.
Reply = collections.namedtuple('Reply', 'command text mesh')


def counts_of(texts):
    return tuple(int(it) for it in texts)


def opened_counts(word):
    """The counts of a word `rNwNeN` of an open, which have one digit each."""
    return counts_of(word[1::2])


def counts_text(counts):
    return 'r%dw%de%d' % counts


class Geom:
    def __init__(self, kind, name, rank, withering):
        self.kind, self.name, self.rank, self.withering = kind, name, int(rank), bool(withering)
        self.providers, self.consumers = [], []


def geoms_of(lines):
    """The geoms of a mesh as it is printed, or None where a line hasn't its form."""
    geoms = []
    for line in lines:
        if found := GEOM.fullmatch(line):
            geoms.append(Geom(*found.groups()))
        elif geoms and (found := PROVIDER.fullmatch(line)):
            name, size, sector, *counts, errored = found.groups()
            geoms[-1].providers.append(Provider(name, int(size), int(sector), counts_of(counts), bool(errored)))
        elif geoms and (found := CONSUMER.fullmatch(line)):
            geoms[-1].consumers.append(Consumer(found[1], counts_of(found.groups()[1:])))
        else:
            return None
    return geoms


def is_of_mesh(line):
    return line.startswith(('geom ', '  ')) and len(line) > 2


def replies_of(plan, lines):
    """Each command with its reply and the lines of its mesh, and the lines behind them; None where that can't be. Where
    the last command is `mesh` it gets those too."""
    left, replies = collections.deque(lines), []
    for command in plan.commands:
        if not left or not left[0].startswith(f'{command.line} '):
            return None
        reply = left.popleft().split(' ', 1)[1]
        mesh = []
        while command.words[0] == 'mesh' and left and is_of_mesh(left[0]):
            mesh.append(left.popleft())
        replies.append(Reply(command, reply, mesh))
    return replies, list(left)


def meshes_of(lines):
    """The lines of a mesh behind the answer to each line of a script, and behind 0 those of a report without an answer;
    None if the lines aren't a report."""
    meshes, line = {0: []}, 0
    for it in lines:
        if REPLY.fullmatch(it):
            line = int(it.split(' ')[0])
            meshes[line] = []
        else:
            meshes[line].append(it)
    return meshes if all(geoms_of(it) is not None for it in meshes.values()) else None


def is_whole(geoms):
    """Whether these are the geoms of a mesh, in which each consumer has its provider."""
    if geoms is None:
        return False
    names = {it.name for geom in geoms for it in geom.providers}
    return all(it.provider in names for geom in geoms for it in geom.consumers)


def last_mesh(lines):
    """The mesh at the end of a report, of the lines behind its last answer. If that answers a command `mesh`, two
    meshes stand there; the second is taken to begin where the first geom comes again, and each has to be whole."""
    for at in range(len(lines) - 1, 0, -1):
        if lines[at] == lines[0] and is_whole(geoms_of(lines[:at])) and is_whole(geoms_of(lines[at:])):
            return lines[at:]
    return lines


def report_of(text):
    """The report that a text is, or that stands in it if it is a trace."""
    _, mark, report = ('\n' + text).partition('\n% report\n')
    return report if mark else text
