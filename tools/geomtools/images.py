"""images [PATH]: the partition tables and records of an image, or of the images (*.img) of a folder, with their offsets."""
import collections, os, pathlib, sys

from geomtools import files, tables
from geomtools.limits import MAX_LINKS, UNTASTED_RANK

# A provider that lies in one piece of an image: its name, the class of its geom and the geom's rank, where it begins in
# the image, its bytes, and those of a sector.
Provider = collections.namedtuple('Provider', 'name kind rank start size sector')
LOOKING = ('MBR', 'EBR', 'LABEL')
NAME_MOST = 63


def add_words(parser):
    parser.add_argument('path', nargs='*', default=['.'], help='an image, or a folder of images (this folder)')
    parser.add_argument('--sector', type=int, choices=(512, 4096), help='look for sectors of this size alone')


class Image:
    """What is found in an image whose sectors have this size, as lines and as providers, in the order of the tastes."""

    def __init__(self, file, name, size, sector):
        self.file, self.lines = file, []
        self.providers = [Provider(name, 'DISK', 1, 0, size, sector)]
        for provider in self.providers:
            if provider.rank < UNTASTED_RANK:
                self.look(provider)

    def read(self, provider, number):
        """A sector of a provider."""
        self.file.seek(provider.start + number * provider.sector)
        return self.file.read(provider.sector)

    def tell(self, at, text):
        self.lines.append(f'{at:14}  {text}')

    def look(self, provider):
        """Tells what stands on a provider, and notes the providers that come of it."""
        if provider.sector == 512 and provider.kind != 'MBR':
            self.look_for_table(provider)
        if provider.sector == 512 and provider.kind == 'MBR':
            self.look_for_chain(provider)
        if provider.size >= 2 * provider.sector:
            self.look_for_record(provider)

    def offer(self, kind, below, parts):
        """Notes the providers of a geom on one below, each a name with its first byte and its size there. Gives the
        cause to decline them, or None."""
        names = [name for name, _, _ in parts]
        if any(len(name) > NAME_MOST for name in names):
            return f'a name of more than {NAME_MOST} bytes'
        if not {it.name for it in self.providers}.isdisjoint(names):
            return 'a name that is taken'
        self.providers += [Provider(name, kind, below.rank + 1, below.start + start, size, below.sector)
                           for name, start, size in parts]
        return None

    def tell_declined(self, at, what, cause):
        if cause:
            self.tell(at, f'{what}: declined: {cause}')

    # Partition tables

    def look_for_table(self, provider):
        sector, sectors = self.read(provider, 0), provider.size // 512
        if not tables.has_signature(sector):
            return
        what, parts = f'MBR on {provider.name}', []
        self.tell(provider.start, what)
        for place, entry in enumerate(tables.entries(sector), 1):
            is_kept = entry.kind and entry.first and entry.count and entry.first + entry.count <= sectors
            if is_kept:
                parts.append((f'{provider.name}s{place}', 512 * entry.first, 512 * entry.count))
            if entry.kind or entry.first or entry.count:
                self.tell_entry(provider.start, f'entry {place}', entry, provider, parts[-1] if is_kept else None)
        if any(entry.kind == tables.PROTECTIVE for entry in tables.entries(sector)):
            cause = 'an entry of type 0xEE'
        else:
            cause = self.offer('MBR', provider, parts) if parts else 'no entry kept'
        self.tell_declined(provider.start, what, cause)

    def tell_entry(self, at, what, entry, provider, part):
        """Tells an entry of the table that begins there, and where its partition lies, if it is kept."""
        kept = 'not kept'
        if part:
            name, start, size = part
            kept = f'{name} at {provider.start + start}, size {size}'
        self.tell(at + entry.at, f'  {what}: type {entry.kind:02x}, first sector {entry.first}, sectors {entry.count}: '
                  f'{kept}')

    def look_for_chain(self, provider):
        """A chain of links on a slice, as far as it is read."""
        sectors, read, parts, number, cause = provider.size // 512, [], [], 0, None
        while cause is None:
            sector = self.read(provider, number)
            read.append(number)
            if tables.has_signature(sector):
                parts += self.tell_link(provider, sectors, number, len(read), sector)
            elif number == 0:
                return
            cause, number = self.way_on(sector, sectors, read, parts)
        if cause == 'end':
            cause = self.offer('EBR', provider, parts)
        self.tell_declined(provider.start + 512 * read[-1], f'EBR on {provider.name}', cause)

    def tell_link(self, provider, sectors, number, link, sector):
        """Tells a link, and gives the partition that it names, if that is kept."""
        entry, onward, *_ = tables.entries(sector)
        at, first = provider.start + 512 * number, number + entry.first
        is_kept = entry.kind and entry.first and entry.count and first + entry.count <= sectors
        parts = [(f'{provider.name}l{link}', 512 * first, 512 * entry.count)] if is_kept else []
        self.tell(at, f'EBR on {provider.name}, link {link}')
        self.tell_entry(at, 'entry 1', entry, provider, parts[0] if parts else None)
        if onward.kind:
            self.tell(at + onward.at, f'  entry 2: type {onward.kind:02x}, next link at sector {onward.first}')
        return parts

    def way_on(self, sector, sectors, read, parts):
        """The cause to end a chain behind a link, which is `end` where it is whole, and the sector of the next link."""
        onward = list(tables.entries(sector))[1]
        if not tables.has_signature(sector):
            return 'no signature', None
        if onward.kind not in tables.LINK_TYPES:
            return 'a second entry of another type', None
        if onward.kind == tables.NO_TYPE:
            return 'end' if parts else 'no partition kept', None
        if onward.first == 0 or onward.first in read:
            return 'a link that was read already, or sector 0', None
        if onward.first >= sectors:
            return 'a link past the media', None
        return 'a link 33' if len(read) >= MAX_LINKS else None, onward.first

    # Records

    def look_for_record(self, provider):
        number = provider.size // provider.sector - 1
        found, at = tables.record(self.read(provider, number)), provider.start + number * provider.sector
        if not found:
            return
        what = f'{found.kind} on {provider.name}'
        self.tell(at, f'{what}: version {found.version}, name {found.name!a}{fields(found)}')
        cause = found.cause_against(provider.size)
        if not cause and found.kind == 'LABEL':
            size = provider.size - provider.sector
            cause = self.offer('LABEL', provider, [(f'label/{found.name}', 0, size)])
            if not cause:
                self.tell(at, f'  label/{found.name} at {provider.start}, size {size}')
        self.tell_declined(at, what, cause)


def fields(record):
    """The fields of a record that are its class's own."""
    if record.kind == 'LABEL':
        return '' if record.size is None else f', media size {record.size}'
    stripe = '' if record.stripe is None else f', stripe size {record.stripe}'
    return f', id {record.id}, place {record.place}, count {record.count}{stripe}'


def told(path, sizes=(512, 4096)):
    """The lines that tell an image: its size, and for each size of sectors what is found."""
    size = path.stat().st_size
    yield f'{path.name}: {size} bytes'
    fitting = [sector for sector in sizes if size and size % sector == 0]
    with open(path, 'rb') as file:
        for sector in fitting:
            image = Image(file, path.stem, size, sector)
            if image.lines:
                yield f'  sectors of {sector}'
                yield from image.lines
    if not fitting:
        yield '  not one or more whole sectors'


def images_of(path):
    """The images at a path: it alone, or those of a folder. What is named as one and isn't a file is told."""
    if not os.path.isdir(path):
        if not os.path.exists(path):
            raise files.Stop(f'{path}: there is no such file', 2)
        yield pathlib.Path(path)
        return
    for it in sorted(pathlib.Path(path).glob('*.img')):
        if it.is_file():
            yield it
        else:
            print(f'geom images: {it} is passed over: it is no file', file=sys.stderr)


def main(given):
    sizes = (given.sector,) if given.sector else (512, 4096)
    for path in given.path:
        for image in images_of(path):
            if not image.is_file():
                raise files.Stop(f'{image} is no file', 2)
            for line in told(image, sizes):
                print(line)
    return 0
