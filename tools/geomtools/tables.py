"""What stands in sectors: partition tables and records, in the formats of docs/PROFILE.md."""
import collections, re, struct

from geomtools.limits import MAX_COMPONENTS, MAX_STRIPE_BYTES

SIGNATURE = b'\x55\xaa'
FIRST_ENTRY, ENTRY_BYTES = 446, 16
PROTECTIVE, NO_TYPE = 0xEE, 0
LINK_TYPES = (NO_TYPE, 0x05, 0x0F)
NEWEST = {'LABEL': 2, 'CONCAT': 1, 'STRIPE': 1}

# An entry of a partition table: the place in its sector, its type, its first sector and its sectors.
Entry = collections.namedtuple('Entry', 'at kind first count')


def has_signature(sector):
    return sector[510:512] == SIGNATURE


def entries(sector):
    """The four entries of a partition table."""
    for at in range(FIRST_ENTRY, FIRST_ENTRY + 4 * ENTRY_BYTES, ENTRY_BYTES):
        yield Entry(at, sector[at + 4], *struct.unpack_from('<II', sector, at + 8))


def table(parts):
    """A sector of 512 bytes with the partition table of at most four parts (type, first sector, sectors)."""
    sector = bytearray(512)
    for place, (kind, first, count) in enumerate(parts):
        at = FIRST_ENTRY + ENTRY_BYTES * place
        sector[at + 4] = kind
        struct.pack_into('<II', sector, at + 8, first, count)
    sector[510:] = SIGNATURE
    return bytes(sector)


class Record:
    """The record of a class that a sector has."""

    def __init__(self, kind, sector):
        self.kind, self.sector_size = kind, len(sector)
        self.version, = struct.unpack_from('<I', sector, 16)
        self.field = sector[20:36]
        self.name = self.field.partition(b'\0')[0].decode('latin-1')
        if kind == 'LABEL':
            self.size = struct.unpack_from('<Q', sector, 36)[0] if self.version == 2 else None
        else:
            self.id, self.place, self.count = struct.unpack_from('<IHH', sector, 36)
            self.stripe = struct.unpack_from('<I', sector, 44)[0] if kind == 'STRIPE' else None

    def has_good_name(self):
        """Whether it is a name with zeros alone behind it."""
        is_name = re.fullmatch(r'[A-Za-z0-9_-]{1,16}', self.name)
        return bool(is_name) and self.field == self.name.encode().ljust(16, b'\0')

    def cause_against(self, media_size):
        """The cause to decline it on a provider of this size, or None."""
        if not 1 <= self.version <= NEWEST[self.kind]:
            return 'another version'
        if not self.has_good_name():
            return 'a bad name'
        if self.kind == 'LABEL':
            return 'another media size' if self.size not in (None, media_size) else None
        if not 1 <= self.count <= MAX_COMPONENTS or self.place >= self.count:
            return "a count that isn't 1 to 16, or a place that isn't below it"
        if self.kind == 'STRIPE' and (not 0 < self.stripe <= MAX_STRIPE_BYTES or self.stripe % self.sector_size):
            return 'S is 0, above 32,768 or no multiple of the sector size'
        return None


def record(sector):
    """The record of the class whose magic a sector has, or None."""
    for kind in NEWEST:
        if sector[:16] == f'RGEOM::{kind}'.encode().ljust(16, b'\0'):
            return Record(kind, sector)
    return None


def head(kind, version, name):
    """What each record begins with."""
    return struct.pack('<16sI16s', f'RGEOM::{kind.upper()}'.encode(), version, name.encode())


def label(size, name, media=None):
    """A sector of this size with a label, which has version 2 where it says the media size."""
    data = head('LABEL', 1, name) if media is None else head('LABEL', 2, name) + struct.pack('<Q', media)
    return data.ljust(size, bytes(1))


def member(size, kind, name, number, place, count, stripe=None):
    """A sector of this size with the record of a concat, or of a stripe if there is a size of strips."""
    data = head(kind, 1, name) + struct.pack('<IHH', number, place, count)
    return (data if stripe is None else data + struct.pack('<I', stripe)).ljust(size, bytes(1))
