"""Tastes: which class is asked, which sector is read, and what a class makes of what it finds."""
from __future__ import annotations

from typing import Optional

from geomtools import tables
from geomtools.limits import MAX_LINKS, MAX_MEDIA_BYTES
from geomtools.model import requests
from geomtools.model.counts import ONE_READ, Demand
from geomtools.model.graph import Geom, Provider
from geomtools.model.world import NEXT_SECTOR, NO_CLASS, READ_BACK, READ_OUT, Taste, World

SLICE_SECTOR = 512


def judge(world: World) -> str:
    """One step of the taste, the first that applies. It says what was done."""
    taste = world.taste
    end = why_ended(taste)
    if end:
        world.graph.consumers.remove(taste.consumer)
        world.taste = None
        return f'the taste of {taste.provider.name} ends, since {end}'
    if taste.asked == READ_BACK:
        return take_result(world, taste)
    if taste.asked == NEXT_SECTOR:
        return read_sector(world, taste)
    return ask_class(world, taste)


def why_ended(taste: Taste) -> str:
    """Why the taste ends with the next judge, or an empty text."""
    if taste.provider.has_error:
        return 'its provider is lost'
    if taste.consumer.is_marked:
        return 'a writer came to its provider'
    return 'all classes were asked' if taste.asked == NO_CLASS and not taste.classes else ''


def end_class(taste: Taste, said: str) -> str:
    """The class that is asked is done with."""
    told = f'{taste.kind} {said}'
    taste.asked, taste.kind, taste.got, taste.links = NO_CLASS, None, None, []
    return told


# Asking

def first_sector(kind: str, provider: Provider) -> Optional[int]:
    """The sector for which a class asks first, if it looks at such a provider."""
    if kind in ('MBR', 'EBR'):
        is_slice = provider.geom.kind == 'MBR'
        return 0 if provider.sector == SLICE_SECTOR and is_slice == (kind == 'EBR') else None
    sectors = provider.size // provider.sector
    return sectors - 1 if sectors >= 2 else None


def ask_class(world: World, taste: Taste) -> str:
    """The next class is asked, or passed over."""
    taste.kind = taste.classes.popleft()
    sector = first_sector(taste.kind, taste.provider)
    if world.graph.has_class(taste.kind, taste.provider):
        return end_class(taste, 'is passed over, since it is there already')
    if sector is None:
        return end_class(taste, "is passed over, since it doesn't look at such a provider")
    taste.sector = sector
    return read_sector(world, taste)


def read_sector(world: World, taste: Taste) -> str:
    """The read of a sector is submitted, unless it isn't granted."""
    provider = taste.provider
    demand = Demand(world.graph, {**world.granted(), taste.consumer: ONE_READ})
    refusal = 'ENXIO' if world.graph.has_error_below(provider) else demand.refusal()
    if refusal:
        return end_class(taste, f'is done with, since its read is refused with {refusal}')
    taste.asked = READ_OUT
    bio = requests.submit(world, 'read', taste.sector * provider.sector, provider.sector, b'', taste.consumer, taste)
    return f'{taste.kind} asks for sector {taste.sector}, by request {bio.number}'


# Judging

def take_result(world: World, taste: Taste) -> str:
    """What the class that is asked says to the sector that is back."""
    got, taste.got = taste.got, None
    if got[0] != 'bytes':
        return end_class(taste, 'is done with, since its read failed')
    if taste.kind == 'EBR':
        return judge_link(world, taste, got[1])
    accept = accept_table if taste.kind == 'MBR' else accept_record
    cause = accept(world, taste, got[1])
    return end_class(taste, f'declines: {cause}' if cause else 'accepts')


def kept(first: int, entry: tables.Entry, sectors: int) -> Optional[tuple[int, int]]:
    """The first sector and the sectors that an entry names, counted from a sector, if it is kept."""
    if not (entry.kind and entry.first and entry.count) or first + entry.first + entry.count > sectors:
        return None
    return first + entry.first, entry.count


def with_slices(world: World, kind: str, below: Provider, parts: dict[str, tuple[int, int]]) -> Optional[str]:
    """A geom with these slices, each a name with its first sector and its sectors; or the cause to decline."""
    if not world.graph.are_free(list(parts)):
        return "a name that is taken or isn't one"
    geom = new_geom(world, kind, below.name)
    geom.places.append(world.graph.add_consumer(geom, below))
    for name, (first, count) in parts.items():
        world.offer(geom, name, count * SLICE_SECTOR, SLICE_SECTOR, first * SLICE_SECTOR)
    return None


def new_geom(world: World, kind: str, name: str, **config: object) -> Geom:
    return world.graph.add_geom(kind, name, is_automatic=True, **config)


def accept_table(world: World, taste: Taste, data: bytes) -> Optional[str]:
    """The geom of a partition table is made, or there is a cause to decline."""
    provider = taste.provider
    if not tables.has_signature(data):
        return 'no signature'
    entries = list(tables.entries(data))
    if any(it.kind == tables.PROTECTIVE for it in entries):
        return 'an entry of type 0xEE'
    found = [kept(0, it, provider.size // provider.sector) for it in entries]
    parts = {f'{provider.name}s{place}': it for place, it in enumerate(found, 1) if it}
    return with_slices(world, 'MBR', provider, parts) if parts else 'no entry kept'


def judge_link(world: World, taste: Taste, data: bytes) -> str:
    """A link of a chain of logical partitions: it leads to another one, or the chain ends here."""
    sectors = taste.provider.size // taste.provider.sector
    own, second = list(tables.entries(data))[:2]
    taste.links.append((taste.sector, kept(taste.sector, own, sectors)))
    cause = link_cause(taste, data, second, sectors)
    if cause:
        return end_class(taste, f'declines: {cause}')
    if second.kind:
        taste.asked, taste.sector = NEXT_SECTOR, second.first
        return f'EBR reads a link, which leads to sector {second.first}'
    name = taste.provider.name
    parts = {f'{name}l{place}': part for place, (_, part) in enumerate(taste.links, 1) if part}
    cause = with_slices(world, 'EBR', taste.provider, parts)
    return end_class(taste, f'declines: {cause}' if cause else 'accepts')


def link_cause(taste: Taste, data: bytes, second: tables.Entry, sectors: int) -> Optional[str]:
    """What is against a chain, the last of whose links is this sector."""
    if not tables.has_signature(data):
        return 'no signature'
    if second.kind not in tables.LINK_TYPES:
        return 'a second entry of another type'
    if not second.kind:
        return None if any(part for _, part in taste.links) else 'no partition kept'
    if second.first == 0 or any(sector == second.first for sector, _ in taste.links):
        return 'a link that was read already, or sector 0'
    if second.first >= sectors:
        return 'a link past the media'
    return f'a link {MAX_LINKS + 1}' if len(taste.links) >= MAX_LINKS else None


# Records

def accept_record(world: World, taste: Taste, data: bytes) -> Optional[str]:
    """What a label or a record of an assembly makes, or the cause to decline."""
    record = tables.record(data)
    if not record or record.kind != taste.kind:
        return 'another magic'
    cause = record.cause_against(taste.provider.size)
    if cause:
        return cause
    return accept_label(world, taste.provider, record) if taste.kind == 'LABEL' else join(world, taste.provider, record)


def accept_label(world: World, provider: Provider, record: tables.Record) -> Optional[str]:
    name = f'label/{record.name}'
    if not world.graph.are_free([name]):
        return 'a name that is taken'
    geom = new_geom(world, 'LABEL', provider.name)
    geom.places.append(world.graph.add_consumer(geom, provider))
    world.offer(geom, name, provider.size - provider.sector, provider.sector)
    return None


def is_same_assembly(geom: Geom, record: tables.Record) -> bool:
    """Whether a standing geom is assembled by records like this one."""
    said = geom.kind, geom.name, geom.id, len(geom.places), geom.stripe
    return geom.is_automatic and not geom.is_withering and said == (
        record.kind, record.name, record.id, record.count, record.stripe)


def join(world: World, provider: Provider, record: tables.Record) -> Optional[str]:
    """The provider takes its place in the geom of the record, which is made if it doesn't stand."""
    geom = next((it for it in world.graph.geoms if is_same_assembly(it, record)), None)
    places = geom.places if geom else [None] * record.count
    sizes = list(geom.sizes) if geom else [0] * record.count
    if places[record.place]:
        return 'a filled place'
    if any(it.provider.sector != provider.sector for it in places if it):
        return 'another sector size'
    sizes[record.place] = provider.size - provider.sector
    is_whole = all(it or place == record.place for place, it in enumerate(places))
    size, name = joined_size(sizes, record.stripe), f'{record.kind.lower()}/{record.name}'
    if is_whole and not 0 < size <= MAX_MEDIA_BYTES:
        return 'a size of zero or above 2^60'
    if is_whole and not world.graph.are_free([name]):
        return 'a name that is taken'
    geom = geom or new_geom(world, record.kind, record.name, id=record.id, stripe=record.stripe, places=places)
    geom.sizes, geom.places[record.place] = sizes, world.graph.add_consumer(geom, provider)
    if is_whole:
        world.offer(geom, name, size, provider.sector)
    return None


def joined_size(sizes: list[int], stripe: Optional[int]) -> int:
    """The size of a concat, or of a stripe with strips of this size, over components of these sizes."""
    return len(sizes) * (min(sizes) // stripe * stripe) if stripe else sum(sizes)
