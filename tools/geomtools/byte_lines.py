"""bytes FILE: the bytes of a file as the `write` lines of a script, in as many as it takes."""
import itertools

from geomtools import files, grammar, runs
from geomtools.limits import MAX_REQUEST_BYTES, MAX_SCRIPT_BYTES, MAX_SCRIPT_LINES, MAX_WRITE_LINE_BYTES


def add_words(parser):
    parser.add_argument('file', help='the file, or - for standard input')
    parser.add_argument('--actor', default='a', metavar='NAME', help='the actor who writes (a)')
    parser.add_argument('--handle', default='h', metavar='H', help='the handle that is written to (h)')
    parser.add_argument('--offset', type=int, default=0, metavar='N', help='where the first byte goes (0)')
    parser.add_argument('--sector', type=int, default=512, choices=(512, 4096), help='bytes of a sector (512)')


def lines_of(data, actor, handle, offset, sector):
    """The lines that write the bytes, which are whole sectors, each as long as a line and a request may be."""
    at = 0
    while at < len(data):
        sizes = range(sector, min(len(data) - at, MAX_REQUEST_BYTES) + 1, sector)

        def line(size):
            return f'{actor} write {handle} {offset + at} {runs.runs_text(data[at:at + size])}'

        fitting = list(itertools.takewhile(lambda size: len(line(size)) <= MAX_WRITE_LINE_BYTES, sizes))
        if not fitting:
            raise files.Stop(f'the runs of the sector at {at} have no room in a line of {MAX_WRITE_LINE_BYTES} bytes')
        yield line(fitting[-1])
        at += fitting[-1]


def bytes_that_fit(lines, sector):
    """How many bytes the first of these lines write that a script has room for, behind five lines of a header."""
    size, written = 255 * 5, 0
    for count, line in enumerate(lines, 6):
        size += len(line) + 1
        if size > MAX_SCRIPT_BYTES or count > MAX_SCRIPT_LINES:
            break
        written += sum(int(word.split('*')[1]) for word in line.split(' ')[4:])
    return written // sector * sector


def main(given):
    if given.offset < 0 or given.offset % given.sector:
        raise files.Stop(f'--offset is in whole sectors of {given.sector} bytes', 2)
    for name in (given.actor, given.handle):
        if grammar.FORMS['NAME'].cause(name):
            raise files.Stop(f"'{name}' isn't {grammar.FORMS['NAME'].wanted}", 2)
    data = files.read_bytes(given.file)
    more = -len(data) % given.sector
    lines = list(lines_of(data + bytes(more), given.actor, given.handle, given.offset, given.sector))
    fitting = bytes_that_fit(lines, given.sector)
    if fitting < len(data):
        raise files.Stop(f'a script has at most {MAX_SCRIPT_LINES} lines and {MAX_SCRIPT_BYTES} bytes; of these {len(data)} '
                         f'bytes the first {fitting} fit, so put the others into an image')
    if more:
        lines.insert(0, f'# {len(data)} bytes, and {more} zeros to the end of the last sector')
    for line in lines:
        print(line)
    return 0
