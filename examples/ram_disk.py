#!/usr/bin/env python3
"""ram_disk.py [GEOMRUN]

A disk of this program's own serves a small script: it is a driver under test, in place of one of geomrun's. Each step
is written down as it is made. That is a trace, and `geomrun verify` says whether it is a legal history of the script
that ends at rest and has this report. So it prints `yes`.
"""
import itertools, os, pathlib, subprocess, sys

# The one of the repository, or else one that is installed.
GEOMRUN = pathlib.Path(__file__).resolve().parent.parent / 'geomrun'
GEOMRUN = GEOMRUN if GEOMRUN.exists() else 'geomrun'

SCRIPT = """\
ram md0 512 8
actor a
a open h md0 r1w1e0
a write h 512 11*512
a read h 0 1024
a close h
"""

# What the actor was answered, line by line, and the mesh that is left.
REPORT = """\
3 ok
4 ok
5 ok 00*512 11*512
6 ok
geom DISK md0 rank 1
  provider md0 size 4096 sector 512 r0w0e0
"""


def runs(data):
    """Bytes as a trace has them."""
    return ' '.join('%02x*%d' % (byte, len(list(run))) for byte, run in itertools.groupby(data))


class RamDisk:
    """The driver: eight sectors of 512 zeros. Each call gives its answer as a trace has it."""

    def __init__(self):
        self.held = bytearray(8 * 512)

    def read(self, at, size):
        return 'bytes ' + runs(self.held[at:at + size])

    def write(self, at, data):
        self.held[at:at + len(data)] = data
        return 'done'


class Steps:
    """The lines of the steps so far, all of seat 0, and how many requests there were."""

    def __init__(self):
        self.lines, self.requests = [], 0

    def make(self, step):
        self.lines.append('% 0 ' + step)

    def serve(self, answer):
        """The next request goes to disk 0, which is asked and answers, and the answer goes up."""
        self.requests += 1
        self.make(f'start {self.requests}')
        self.make(f'take 0 {self.requests}')
        self.make(f'deliver {self.requests} {answer}')
        self.make(f'up {self.requests}')

    def taste(self, disk):
        """The disk is offered for taste. MBR looks at its first sector, EBR isn't asked, and LABEL, CONCAT and STRIPE
        look at its last one. None finds anything."""
        self.make('event')
        for place in (0, None, 7 * 512, 7 * 512, 7 * 512):
            self.make('judge')  # a class asks for a sector, or is passed over
            if place is not None:
                self.serve(disk.read(place, 512))
                self.make('judge')  # it declines what it has read
        self.make('judge')  # no class is left


def history(disk):
    """The steps by which the disk serves the script."""
    steps = Steps()
    steps.taste(disk)  # the disk is new
    steps.make('go 0')  # line 3, the open
    steps.make('event')  # a writer has come; nobody has to go
    steps.make('go 0')  # line 4, the write
    steps.serve(disk.write(512, b'\x11' * 512))
    steps.make('go 0')  # line 5, the read
    steps.serve(disk.read(0, 1024))
    steps.make('go 0')  # line 6, the close
    steps.taste(disk)  # the last writer has gone, so the disk is offered again
    return steps.lines


def trace(lines):
    return SCRIPT + ''.join(line + '\n' for line in lines) + '% report\n' + REPORT


def verify(text):
    """What geomrun says of a trace."""
    program = sys.argv[1] if len(sys.argv) > 1 else GEOMRUN
    try:
        said = subprocess.run([program, 'verify'], input=text.encode(), stdout=subprocess.PIPE).stdout
    except OSError as error:
        sys.exit(f'{program}: {error.strerror}')
    return said.decode().strip()


def tell(text):
    """Prints a line, or ends with a message where standard output can't be written."""
    try:
        os.write(1, text.encode() + b'\n')
    except OSError as error:
        sys.exit(f'standard output: {error.strerror}')


if __name__ == '__main__':
    tell(verify(trace(history(RamDisk()))))
