"""What each command answers and does. The answer is the first refusal that holds; an accepted request is answered when
it has come back."""
from __future__ import annotations

from typing import Callable, Optional, Sequence

from geomtools import runs, tables
from geomtools.limits import (
    MAX_COMPONENTS, MAX_MEDIA_BYTES, MAX_RANK, MAX_REQUEST_BYTES, MAX_STRIPE_BYTES)
from geomtools.model import events, requests
from geomtools.model.counts import NOTHING
from geomtools.model.graph import NAME, Geom, Provider
from geomtools.model.listing import mesh_lines
from geomtools.model.tasting import joined_size
from geomtools.model.world import RESIZE, Handle, Line, World
from geomtools.scripts import Command

Answer = Optional[str]


def do_command(world: World, command: Command) -> None:
    """Does a command, and replies to its line where it is answered at once."""
    word, *more = command.words
    answer = COMMANDS[word](world, command, *more)
    if answer:
        world.reply(command.line, answer)


# Handles

def handle_of(world: World, command: Command, name: str) -> Optional[Handle]:
    return next((it for it in world.handles if it.actor == command.actor and it.name == name), None)


def do_open(world: World, command: Command, name: str, prov: str, counts: str) -> Answer:
    if handle_of(world, command, name):
        return 'EEXIST'
    provider = world.graph.named(prov)
    if not provider:
        return 'ENOENT'
    before, consumer = world.demand().writers(), world.graph.add_consumer(world.dev, provider)
    handle = Handle(command.actor, name, consumer, tuple(int(it) for it in counts[1::2]), command.line)
    world.handles.append(handle)
    refusal = 'ENXIO' if world.graph.has_error_below(provider) else world.demand().refusal()
    if refusal:
        world.handles.remove(handle)
        world.graph.consumers.remove(consumer)
        return refusal
    events.after_rise(world, before)
    return 'ok'


def do_close(world: World, command: Command, name: str) -> Answer:
    handle = handle_of(world, command, name)
    if not handle:
        return 'EBADF'
    if handle.consumer and world.is_active(handle.consumer):
        return 'EBUSY'
    before = world.demand().writers()
    world.handles.remove(handle)
    if handle.consumer:
        world.graph.consumers.remove(handle.consumer)
    events.after_fall(world, before)
    return 'ok'


# Requests

def request_refusal(handle: Optional[Handle], cmd: str, offset: int, size: int) -> Answer:
    """What is against a request through a handle, if anything is."""
    if not handle:
        return 'EBADF'
    if handle.is_dead:
        return 'ENXIO'
    if not handle.grant[0 if cmd == 'read' else 1]:
        return 'EPERM'
    provider = handle.consumer.provider
    if provider.has_error:
        return 'ENXIO'
    if cmd == 'flush':
        return None
    if offset % provider.sector or size % provider.sector or not 0 < size <= MAX_REQUEST_BYTES:
        return 'EINVAL'
    return 'EIO' if offset + size > provider.size else None


def ask(world: World, command: Command, cmd: str, name: str, offset: int, size: int, data: bytes = b'') -> Answer:
    """A request through a handle, if nothing is against it."""
    handle = handle_of(world, command, name)
    refusal = request_refusal(handle, cmd, offset, size)
    if not refusal:
        requests.submit(world, cmd, offset, size, data, handle.consumer, Line(command.line, handle))
    return refusal


def do_read(world: World, command: Command, name: str, offset: str, size: str) -> Answer:
    return ask(world, command, 'read', name, int(offset), int(size))


def do_delete(world: World, command: Command, name: str, offset: str, size: str) -> Answer:
    return ask(world, command, 'delete', name, int(offset), int(size))


def do_write(world: World, command: Command, name: str, offset: str, *texts: str) -> Answer:
    data = runs.bytes_of_runs(texts)
    return ask(world, command, 'write', name, int(offset), len(data), data)


def do_flush(world: World, command: Command, name: str) -> Answer:
    return ask(world, command, 'flush', name, 0, 0)


def write_last(world: World, command: Command, name: str, sector_of: Callable[[Provider], bytes]) -> Answer:
    """A WRITE of what a function gives for the handle's provider, at its last sector."""
    handle = handle_of(world, command, name)
    if not handle or not handle.consumer:
        return ask(world, command, 'write', name, 0, 0)
    provider = handle.consumer.provider
    return ask(world, command, 'write', name, provider.size - provider.sector, provider.sector, sector_of(provider))


def do_label(world: World, command: Command, name: str, label: str) -> Answer:
    return write_last(world, command, name, lambda it: tables.label(it.sector, label))


def do_relabel(world: World, command: Command, name: str, label: str) -> Answer:
    return write_last(world, command, name, lambda it: tables.label(it.sector, label, it.size))


def do_mark(world: World, command: Command, name: str, kind: str, *fields: str) -> Answer:
    label, *numbers = fields
    return write_last(world, command, name, lambda it: tables.member(it.sector, kind, label, *map(int, numbers)))


# Waiting, and looking

def do_wait(world: World, command: Command) -> Answer:
    return 'ok'


def do_mesh(world: World, command: Command) -> Answer:
    return '\n'.join(['ok', *mesh_lines(world)])


# Disks

def disk_number(world: World, name: str) -> Optional[int]:
    return next((number for number, disk in enumerate(world.disks) if disk.name == name), None)


def do_insert(world: World, command: Command, name: str) -> Answer:
    number = disk_number(world, name)
    if number is None:
        return 'ENOENT'
    if any(it.disk == number for it in world.graph.geoms):
        return 'EBUSY'
    if world.graph.is_taken(name):
        return 'EEXIST'
    world.stand(number)
    return 'ok'


def do_pull(world: World, command: Command, name: str) -> Answer:
    number = disk_number(world, name)
    if number is None:
        return 'ENOENT'
    geom = next((it for it in world.graph.geoms if it.disk == number and not it.is_withering), None)
    if not geom:
        return 'ENXIO'
    events.wither(world, geom)
    return 'ok'


# Geoms

def build(world: World, kind: str, names: tuple[str, str], below: Sequence[Provider], size: int, start: int = 0,
          **config: object) -> Answer:
    """A geom over these providers, with one provider. The names are those of both."""
    if 1 + max(world.graph.rank(it.geom) for it in below) > MAX_RANK:
        return 'EDEEP'
    geom = world.graph.add_geom(kind, names[0], **config)
    geom.places = [world.graph.add_consumer(geom, it) for it in below]
    world.offer(geom, names[1], size, below[0].sector, start)
    return 'ok'


def do_nop(world: World, command: Command, prov: str, *numbers: str) -> Answer:
    provider, name = world.graph.named(prov), f'{prov}.nop'
    offset, size, fail = map(int, numbers)
    if not provider:
        return 'ENOENT'
    if provider.has_error:
        return 'ENXIO'
    if world.graph.is_taken(name):
        return 'EEXIST'
    if not size or offset % provider.sector or size % provider.sector or offset + size > provider.size:
        return 'EINVAL'
    if not NAME.fullmatch(name):
        return 'EINVAL'
    return build(world, 'NOP', (name, name), [provider], size, offset, fail=fail)


def joined_refusal(world: World, name: str, below: Sequence[Optional[Provider]]) -> Answer:
    """What is against a concat or a stripe of these providers, before its size is asked for."""
    if world.graph.is_taken(name):
        return 'EEXIST'
    if not all(below):
        return 'ENOENT'
    return 'ENXIO' if any(it.has_error for it in below) else None


def do_join(world: World, command: Command, kind: str, name: str, stripe: Optional[int], *provs: str) -> Answer:
    """A concat, or a stripe if there is a size of strips."""
    full_name, below = f'{kind.lower()}/{name}', [world.graph.named(it) for it in provs]
    refusal = joined_refusal(world, full_name, below)
    if refusal:
        return refusal
    if stripe and (stripe % below[0].sector or stripe > MAX_STRIPE_BYTES) or len({it.sector for it in below}) > 1:
        return 'EINVAL'
    sizes = [it.size for it in below]
    size = joined_size(sizes, stripe)
    if not 0 < size <= MAX_MEDIA_BYTES:
        return 'EINVAL'
    return build(world, kind, (name, full_name), below, size, sizes=sizes, stripe=stripe)


def do_concat(world: World, command: Command, name: str, *provs: str) -> Answer:
    return do_join(world, command, 'CONCAT', name, None, *provs)


def do_stripe(world: World, command: Command, name: str, stripe: str, *provs: str) -> Answer:
    return do_join(world, command, 'STRIPE', name, int(stripe), *provs)


def do_destroy(world: World, command: Command, kind: str, name: str) -> Answer:
    those = (it for it in world.graph.geoms if it.kind == kind.upper() and it.name == name and not it.is_withering)
    geom, demand = next(those, None), world.demand()
    if not geom:
        return 'ENOENT'
    if any(demand.have(it) != NOTHING for it in world.graph.providers_of(geom)):
        return 'EBUSY'
    events.wither(world, geom)
    return 'ok'


# Append

def growing(world: World, name: str) -> tuple[Optional[Geom], Optional[Provider]]:
    """The concat that `append` means, and its provider."""
    for geom in world.graph.geoms:
        if geom.kind == 'CONCAT' and geom.name == name and not geom.is_withering:
            providers = world.graph.providers_of(geom)
            if providers:
                return geom, providers[0]
    return None, None


def is_growth_busy(world: World, provider: Provider) -> bool:
    """Whether a request is to the provider or to one above it, or such a provider is tasted."""
    targets = {it.target for it in world.bios.values()} | ({world.taste.provider} if world.taste else set())
    return any(provider in world.graph.below(it) for it in targets)


def component_refusal(world: World, geom: Geom, provider: Provider) -> Answer:
    """What is against a consumer of the geom that has just come to the provider; without it they might be a loop."""
    graph, consumer = world.graph, world.graph.consumers.pop()
    if graph.has_error_below(provider):
        return 'ENXIO'
    if graph.reaches(provider.geom, geom):
        return 'ELOOP'
    graph.consumers.append(consumer)
    ranks = graph.ranks()
    is_deep = any(rank > MAX_RANK for it, rank in ranks.items() if it.kind not in ('DEV', 'TASTE'))
    refusal = 'EDEEP' if is_deep else world.demand().refusal()
    if refusal:
        graph.consumers.remove(consumer)
    return refusal


def do_append(world: World, command: Command, name: str, prov: str) -> Answer:
    (geom, grown), provider = growing(world, name), world.graph.named(prov)
    if not geom or not provider:
        return 'ENOENT'
    is_full = len(world.graph.consumers_of(geom)) >= MAX_COMPONENTS
    if geom.is_automatic or is_full or grown.sector != provider.sector or grown.size + provider.size > MAX_MEDIA_BYTES:
        return 'EINVAL'
    if is_growth_busy(world, grown):
        return 'EBUSY'
    before, consumer = world.demand().writers(), world.graph.add_consumer(geom, provider)
    refusal = component_refusal(world, geom, provider)
    if refusal:
        return refusal
    geom.places.append(consumer)
    geom.sizes.append(provider.size)
    grown.size += provider.size
    events.after_rise(world, before)
    world.events.append((RESIZE, grown))
    return 'ok'


COMMANDS: dict[str, Callable[..., Answer]] = {
    'open': do_open, 'close': do_close, 'read': do_read, 'write': do_write, 'delete': do_delete, 'flush': do_flush,
    'label': do_label, 'relabel': do_relabel, 'mark': do_mark, 'sync': do_wait, 'settle': do_wait, 'mesh': do_mesh,
    'insert': do_insert, 'pull': do_pull, 'nop': do_nop, 'concat': do_concat, 'stripe': do_stripe,
    'append': do_append, 'destroy': do_destroy,
}
