"""What a script says that it expects: answers behind its commands, and in lines of its own meshes and what images hold.

    a open h md0 r1w1e0      = ok | EPERM
    a mesh
    = mesh
    = geom DISK md0 rank 1
    =   provider md0 size 4096 sector 512 r1w1e0
    = image d 512 11*512
    = image d sha256 9f86d081884c7d659a2feaa0c55ad015a3bf4f1b2b0b822cd15d6c15b0f00a08

A mesh that stands right behind a command `mesh` is the one that this prints, and any other is the one at the end.
"""
import collections, re

from geomtools import grammar, reports

BEHIND = re.compile(r'([^=].*?) += *(.*)')
ALONE = re.compile(r'=(?: (.*))?')
IMAGE = re.compile(r'image ([\w-]{1,16}) (?:sha256 ([0-9a-f]{64})|(\d+) (.+))')
WANTED_BEHIND = 'wanted is = ok, = ok RUNS or = ERRNO behind a command, or several of them with | between'
WANTED_ALONE = 'wanted is = mesh and its lines, = image NAME sha256 SUM or = image NAME OFFSET RUNS'

# Of an image at the end: its SHA-256 sum, or else the runs that stand at an offset.
Image = collections.namedtuple('Image', 'line name sum offset runs')
# A mesh: the line that expects it, that of the command that prints it or 0 for the one at the end, and its lines.
Mesh = collections.namedtuple('Mesh', 'line command lines')


def is_answer(text):
    """Whether a text is an answer that a command may have."""
    word, *more = text.split(' ')
    return text == 'ok' or text in reports.ERRORS or word == 'ok' and grammar.are_runs(more)


def fits(answer, expected):
    """Whether an answer is one that was expected. `ok` alone leaves open which bytes a read finds."""
    return any(answer == it or it == 'ok' and answer.startswith('ok ') for it in expected)


class Expected:
    """What a script expects: `answers` are the answers that a line may have, and `odd` what has no form."""

    def __init__(self):
        self.answers, self.meshes, self.images, self.odd = {}, [], [], []

    def __len__(self):
        return len(self.answers) + len(self.meshes) + len(self.images)

    def add_behind(self, number, text):
        """What stands behind a command."""
        found = [' '.join(it.split()) for it in text.split('|')]
        self.answers[number] = found
        if not all(map(is_answer, found)):
            self.odd.append((number, text, WANTED_BEHIND))

    def add_alone(self, number, text, command):
        """A line that only expects, behind the command of this line (0: it isn't right behind a command `mesh`)."""
        image = IMAGE.fullmatch(text)
        if text == 'mesh':
            self.meshes.append(Mesh(number, command, []))
        elif self.meshes and reports.is_of_mesh(text) and number == self.meshes[-1].line + len(self.meshes[-1].lines) + 1:
            self.meshes[-1].lines.append(text)
        elif image and (image[2] or grammar.are_runs(image[4].split(' '))):
            self.images.append(Image(number, image[1], image[2], int(image[3] or 0), image[4]))
        else:
            self.odd.append((number, text, WANTED_ALONE))


def split(text):
    """The script without what it expects, with the same lines, and what it expects."""
    lines, expected, command = [], Expected(), 0
    for number, line in enumerate(text.split('\n'), 1):
        alone = ALONE.fullmatch(line)
        behind = None if line.startswith('#') else BEHIND.fullmatch(line)
        if alone:
            expected.add_alone(number, alone[1] or '', command)
            lines.append('#' + line)
            continue
        if behind:
            expected.add_behind(number, behind[2])
        lines.append(behind[1] if behind else line)
        command = number if lines[-1].split(' ')[1:] == ['mesh'] else 0
    return '\n'.join(lines), expected


def plain(text):
    """The script without what it expects."""
    return split(text)[0]
