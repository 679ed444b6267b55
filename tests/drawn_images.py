"""Images that are drawn, with tables, chains and records, some of them odd."""
import struct

from shared import tables


def head_of(kind, version):
    """What a record begins with."""
    return struct.pack('<16sI', f'RGEOM::{kind}'.encode(), version)


def record_of(draw, kind, size, sector):
    """A sector with a record, which is odd now and then."""
    some = 'n%d' % draw.randrange(99)
    name = draw.choice(('v', some, some, some, 'a-name-of-16_big', 'b d', '', 'a\0b'))
    version = draw.choice((1, 1, 1, 2, 2, 0, 3) if kind == 'LABEL' else (1, 1, 1, 1, 2))
    head = head_of(kind, version) + struct.pack('<16s', name.encode())
    if kind == 'LABEL':
        return (head + struct.pack('<Q', draw.choice((size, size, size - sector)))).ljust(sector, b'\0')
    count = draw.choice((2, 3, 16, 17))
    place, strip = draw.choice((0, 1, count)), draw.choice((512, 4096, 0, 513, 32768, 65536))
    return (head + struct.pack('<IHHI', draw.randrange(2 ** 32), place, count, strip)).ljust(sector, b'\0')


def chain_of(draw, first, count):
    """Links of a chain on a slice, as (sector of the image, bytes): most lead on, some lead astray."""
    links = [0] + sorted(draw.sample(range(1, max(2, count)), min(draw.choice((0, 1, 3, 40)), max(1, count - 1))))
    for at, link in enumerate(links):
        onward = (0x05, links[at + 1], 1) if at + 1 < len(links) else (0, 0, 0)
        if draw.random() < 0.04:
            onward = draw.choice(((0x0F, 0, 1), (0x05, link, 1), (0x05, count, 1), (0x83, 1, 1), (0, 0, 0)))
        part = draw.choice((0xA5, 0xA5, 0x83, 0)), draw.choice((1, 1, 1, 0)), draw.choice((1, 1, 2, count))
        yield first + link, tables.table([part, onward])


def image_of(draw, sector):
    """An image with a table, chains, and records at the ends of what may stand there."""
    count = draw.randrange(1, 200)
    image = bytearray(count * sector)

    def put(at, data):
        if at < count:
            image[at * sector:at * sector + len(data)] = data

    parts = [(draw.choice((0x83, 0x05, 0x0F, 0xA5, 0xA5, 0)), draw.randrange(count + 1), draw.randrange(count // 2 + 2))
             for _ in range(draw.randrange(5))]
    if draw.random() < 0.05:
        parts[:1] = [(0xEE, 1, count)]
    for _, first, size in parts:
        for at, data in chain_of(draw, first, size) if draw.random() < 0.7 else ():
            put(at, data)
    for first, size in [(0, count)] + [(first, size) for _, first, size in parts]:
        if draw.random() < 0.6 and size:
            kind = draw.choice(('LABEL', 'LABEL', 'CONCAT', 'STRIPE'))
            put(first + size - 1, record_of(draw, kind, size * sector, sector))
            if kind == 'LABEL' and draw.random() < 0.5 and size > 1:
                put(first + size - 2, record_of(draw, 'LABEL', (size - 1) * sector, sector))
    if draw.random() < 0.9:
        put(0, tables.table(parts))
    return bytes(image)
