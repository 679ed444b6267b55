#!/usr/bin/env python3
"""lying_disk.py [GEOMRUN]

The same as ram_disk.py with two faults, each of which `geomrun verify` finds. It prints `no: report`, and then
`no: line` with the line of the trace that can't be.

What it can't find: that a disk answers other bytes than were written to it. A trace says what the disk answered, and
that is believed; who tests a disk has to compare what it reads with what it wrote, as `tools/geom explain` does.
"""
import sys

sys.dont_write_bytecode = True
import ram_disk


class LyingDisk(ram_disk.RamDisk):
    """It delivers another first byte than it holds, and the actor was told the right one."""

    def read(self, at, size):
        return 'bytes ' + ram_disk.runs(bytes([self.held[at] ^ 1]) + self.held[at + 1:at + size])


def hasty(lines):
    """The steps of a driver that is asked for a request before the request has gone to it."""
    k = lines.index('% 0 start 5')
    return lines[:k] + [lines[k + 1], lines[k]] + lines[k + 2:]


if __name__ == '__main__':
    ram_disk.tell(ram_disk.verify(ram_disk.trace(ram_disk.history(LyingDisk()))))
    text = ram_disk.trace(hasty(ram_disk.history(ram_disk.RamDisk())))
    said = ram_disk.verify(text)
    ram_disk.tell(said)
    if said.startswith('no: line '):
        ram_disk.tell(text.splitlines()[int(said.split()[-1]) - 1])
