"""Scripts whose work is the mesh's own: opens and closes, geoms that are made and washed, pulls and inserts."""

DISK = 'ram md0 512 4096\n'


def opens_and_closes(pairs, others=1000):
    text = DISK + 'actor a\n' + ''.join('a open o%d md0 r1w0e0\n' % k for k in range(others))
    return text + 'a open h md0 r1w0e0\na close h\n' * pairs


def opens_and_closes_of_writers(pairs, others=1000):
    """Each close offers the disk for taste, and each open spoils, where nobody is to be spoiled."""
    text = DISK + 'actor a\n' + ''.join('a open o%d md0 r1w0e0\n' % k for k in range(others))
    return text + 'a open h md0 r1w1e0\na close h\n' * pairs


def handles(count):
    return DISK + 'actor a\n' + ''.join('a open h%d md0 r1w0e0\n' % k for k in range(count))


def handles_of_actors(count):
    """The same, spread over sixteen actors."""
    text = DISK + ''.join('actor a%d\n' % k for k in range(16))
    return text + ''.join('a%d open h%d md0 r1w0e0\n' % (k % 16, k) for k in range(count))


def only_made(count):
    """Concats side by side over one disk."""
    return DISK + 'actor a\n' + ''.join('a concat c%d md0\n' % k for k in range(count))


def wither(count):
    """Those, and the disk is pulled."""
    return only_made(count) + 'a pull md0\na settle\n'


def only_towers(count):
    """Towers of 30 over one disk."""
    text = DISK + 'actor a\n'
    for k in range(count):
        below = 'md0' if k % 30 == 0 else 'concat/c%d' % (k - 1)
        text += 'a concat c%d %s\n' % (k, below)
    return text


def wither_towers(count):
    """Those, and the disk is pulled."""
    return only_towers(count) + 'a pull md0\na settle\n'


def layers(count):
    """Half as many concats side by side over one disk, and then one over each of them."""
    half = count // 2
    text = DISK + 'actor a\n' + ''.join('a concat c%d md0\n' % k for k in range(half))
    return text + ''.join('a concat d%d concat/c%d\n' % (k, k) for k in range(half))


def wither_layers(count):
    """Those, and the disk is pulled: each of the lower ones goes after the one above it, which has a greater number."""
    return layers(count) + 'a pull md0\na settle\n'


def wither_open(count):
    """A disk with that many handles open is pulled: each dies and is reaped."""
    return handles(count) + 'a pull md0\na settle\n'


STRIPE = ''.join('ram md%d 512 4096\n' % k for k in range(4)) + 'actor a\n'


def pieces(reads):
    """Reads of 64 strips."""
    text = STRIPE + 'a stripe s 512 md0 md1 md2 md3\na open h stripe/s r1w0e0\n'
    return text + ''.join('a read h %d 32768\n' % (k % 32 * 32768) for k in range(reads))


def towers(depth):
    """Reads of 64 strips through towers of that many concats: so many times 64 bios are out at once, and 64 more."""
    text, tops = STRIPE, []
    for k in range(4):
        top = 'md%d' % k
        for j in range(depth):
            text += 'a concat t%d-%d %s\n' % (k, j, top)
            top = 'concat/t%d-%d' % (k, j)
        tops.append(top)
    text += 'a stripe s 512 %s\na open h stripe/s r1w0e0\n' % ' '.join(tops)
    return text + 'a read h 0 32768\n' * 30


def runs_of(sector):
    """The text of runs of bytes."""
    text, at = [], 0
    while at < len(sector):
        end = at
        while end < len(sector) and sector[end] == sector[at]:
            end += 1
        text.append('%02x*%d' % (sector[at], end - at))
        at = end
    return ' '.join(text)


def table(entries):
    """A sector with a partition table of (type, first, sectors)."""
    out = bytearray(512)
    for k, (kind, first, count) in enumerate(entries):
        at = 446 + 16 * k
        out[at + 4] = kind
        out[at + 8:at + 16] = first.to_bytes(4, 'little') + count.to_bytes(4, 'little')
    out[510:] = b'\x55\xaa'
    return bytes(out)


def record(magic, name):
    out = bytearray(512)
    out[:len(magic)], out[16], out[20:20 + len(name)] = magic, 1, name
    return bytes(out)


def partitioned():
    """The sectors of a disk of four extended slices with 25 logical partitions each, all with labels: 105 geoms are
    found above it when it is inserted."""
    sectors = {0: table([(5, 1 + 100 * k, 100) for k in range(4)])}
    for k in range(4):
        for j in range(25):
            here, link = 1 + 100 * k + 4 * j, 4 * j
            following = [(5, link + 4, 4)] if j < 24 else []
            sectors[here] = table([(0xa5, 1, 2)] + following)
            sectors[here + 2] = record(b'RGEOM::LABEL', b'v%d-%d' % (k, j))
    return sectors


def inserts_and_pulls(rounds):
    text = DISK + 'actor a\na open h md0 r0w1e0\n'
    text += ''.join('a write h %d %s\n' % (512 * at, runs_of(sector)) for at, sector in sorted(partitioned().items()))
    return text + 'a close h\na settle\n' + 'a pull md0\na settle\na insert md0\na settle\n' * rounds
