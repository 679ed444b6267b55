"""Scripts and requests of the measurements, all made from fixed numbers."""
import itertools, random

SIZE = 1 << 22  # the bytes of the provider that requests go to
PIECE = 4096
LINE = 1536  # the most whole sectors of noise that a line of a script holds
LARGE = 32768  # the longest request that there is


def requests(count, seed=1, size=SIZE, piece=PIECE):
    """Mixed requests as (is_write, offset, byte): half of them writes, at random whole pieces."""
    draw = random.Random(seed)
    return [(draw.random() < 0.5, piece * draw.randrange(size // piece), draw.randrange(256)) for _ in range(count)]


def lines(todo, piece=PIECE):
    return ''.join('a write h %d %02x*%d\n' % (at, byte, piece) if writes else 'a read h %d %d\n' % (at, piece)
                   for writes, at, byte in todo)


def runs(data):
    """Bytes as a script has them."""
    return ' '.join('%02x*%d' % (byte, len(list(run))) for byte, run in itertools.groupby(data))


def unlike_lines(todo, piece=PIECE):
    """The same, but the blocks that are written begin with the number of their request, so no two are alike."""
    return ''.join('a write h %d %s\n' % (at, runs([k // 256, k % 256] + [byte] * (piece - 2))) if writes
                   else 'a read h %d %d\n' % (at, piece) for k, (writes, at, byte) in enumerate(todo))


def over(header, geoms, provider, todo, lines=lines):
    """The script that opens a provider and sends these requests through it."""
    return header + 'actor a\n' + geoms + 'a open h %s r1w1e0\n' % provider + lines(todo) + 'a close h\n'


def memory(todo, lines=lines):
    return over('ram md0 512 %d\n' % (SIZE // 512), '', 'md0', todo, lines)


def unlike(todo):
    """As `memory`, with blocks no two of which are alike."""
    return memory(todo, unlike_lines)


def stripe(todo):
    disks = ''.join('ram md%d 512 %d\n' % (k, SIZE // 512 // 4) for k in range(4))
    return over(disks, 'a stripe s 4096 md0 md1 md2 md3\n', 'stripe/s', todo)


def nops(todo, lines=lines):
    provider, geoms = 'md0', ''
    for _ in range(6):
        geoms += 'a nop %s 0 %d 0\n' % (provider, SIZE)
        provider += '.nop'
    return over('ram md0 512 %d\n' % (SIZE // 512), geoms, provider, todo, lines)


def unlike_nops(todo):
    """As `nops`, with blocks no two of which are alike."""
    return nops(todo, unlike_lines)


def image(todo):
    return over('disk image 512\n', '', 'image', todo)


def noise(size, seed=1):
    """Bytes of which hardly any neighbours are alike."""
    return random.Random(seed).randbytes(size)


def line_writes(todo, data_of=None):
    """All are writes of as many bytes as a line can hold of noise: each of one byte all over, or of what is given for
    the number of a request."""
    def lines(todo):
        return ''.join('a write h %d %s\n' % (at, runs(data_of(k)) if data_of else '%02x*%d' % (byte, LINE))
                       for k, (_, at, byte) in enumerate(todo))
    return memory(todo, lines)


def noise_writes(todo):
    return line_writes(todo, lambda k: noise(LINE, k))


def reads(todo, image, size):
    """All are reads of so many bytes from an image."""
    def lines(todo):
        return ''.join('a read h %d %d\n' % (at // size * size, size) for _, at, _ in todo)
    return over('disk %s 512\n' % image, '', image, todo, lines)


def large_reads(count, header='ram md0 512 %d\n' % (SIZE // 512), provider='md0'):
    """Reads of 32 KiB, the longest that there are."""
    text = header + 'actor a\na open h %s r1w0e0\n' % provider
    return text + ''.join('a read h %d %d\n' % (k * LARGE % SIZE, LARGE) for k in range(count)) + 'a close h\n'


def large_reads_of_noise(count):
    return large_reads(count, 'disk noise 512\n', 'noise')


def generated(start, count):
    """The script that `gen START COUNT` runs."""
    text = ''.join('ram md%d 512 1024\n' % k for k in range(4)) + ''.join('actor a%d\n' % k for k in range(4))
    text += 'a0 stripe s 4096 md0 md1\na0 concat c md2 md3\n'
    text += ''.join('a%d open h0 %s\n' % (k, to) for k, to in enumerate(
        ['stripe/s r1w1e0', 'concat/c r1w1e0', 'stripe/s r1w0e0', 'concat/c r1w0e0']))
    providers = ['md0', 'md1', 'md2', 'md3', 'stripe/s', 'concat/c']
    counts = ['r1w0e0', 'r0w1e0', 'r1w1e0', 'r1w0e1', 'r1w1e1']
    state, draws = start, []
    for _ in range(3 * count):
        state = (state * 1103515245 + 12345) % 2147483648
        draws.append(state // 65536)
    for i in range(count):
        d1, d2, d3 = draws[3 * i:3 * i + 3]
        handle, at, size = 'h%d' % (d2 % 2), 512 * (d3 % 1024), 512 * (1 + d2 // 2 % 8)
        opens = 'open %s %s %s' % (handle, providers[d2 // 2 % 6], counts[d3 % 5])
        reads = 'read %s %d %d' % (handle, at, size)
        text += 'a%d %s\n' % (i % 4, [
            opens, opens, 'close ' + handle, reads, reads, 'write %s %d %02x*%d' % (handle, at, d3 % 256, size),
            'delete %s %d %d' % (handle, at, size), 'flush ' + handle][d1 % 8])
    return text


def reader_program(todo, piece=PIECE):
    """The same requests for nbdsh, one after the other."""
    return ('for w, at, b in %r:\n    h.pwrite(bytes([b]) * %d, at) if w else h.pread(%d, at)\n' % (todo, piece, piece))


def qemu_commands(todo, piece=PIECE):
    """The same requests for qemu-io, without the lines that it prints for each."""
    return ''.join('write -q -P %d %d %d\n' % (byte, at, piece) if writes else 'read -q %d %d\n' % (at, piece)
                   for writes, at, byte in todo)
