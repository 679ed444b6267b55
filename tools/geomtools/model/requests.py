"""What becomes of a request: how it is made, started, cut into pieces, answered, and given up to its owner."""
from __future__ import annotations

from typing import Iterator, NamedTuple, Optional, Union

from geomtools import runs
from geomtools.model.graph import Consumer
from geomtools.model.world import DONE, READ_BACK, SENT, UP, WAITING, Bio, Line, Taste, World


class Piece(NamedTuple):
    """A part of a request: the consumer through which it goes down, where it lies there, and where in the request."""
    consumer: Consumer
    offset: int
    size: int
    at: int


def submit(world: World, cmd: str, offset: int, size: int, data: bytes, source: Consumer,
           owner: Union[Line, Taste, Bio]) -> Bio:
    """A new request, from a consumer to the provider at which it is."""
    number = world.graph.next_number('bio')
    world.bios[number] = Bio(number, cmd, offset, size, data, source, source.provider, owner)
    return world.bios[number]


# Start

def start(world: World, bio: Bio) -> None:
    """The request is bounced, sent to its disk, or split."""
    geom = bio.target.geom
    if bio.target.has_error:
        bounce(bio, 'ENXIO')
    elif geom.kind == 'DISK':
        bio.phase = SENT
    else:
        geom.started += geom.kind == 'NOP'
        if geom.fail and geom.started % geom.fail == 0:
            bounce(bio, 'EIO')
        else:
            split(world, bio)


def bounce(bio: Bio, error: str) -> None:
    bio.phase, bio.result = UP, ('error', error)


def split(world: World, bio: Bio) -> None:
    bio.phase = WAITING
    for piece in pieces(bio):
        data = bio.data[piece.at:piece.at + piece.size]
        submit(world, bio.cmd, piece.offset, piece.size, data, piece.consumer, bio)


def pieces(bio: Bio) -> Iterator[Piece]:
    """The request, cut at each end of a component and of a strip. A FLUSH goes once through each consumer."""
    geom = bio.target.geom
    if bio.cmd == 'flush':
        yield from (Piece(consumer, 0, 0, 0) for consumer in geom.places if consumer)
    elif geom.kind not in ('CONCAT', 'STRIPE'):
        yield Piece(geom.places[0], bio.target.start + bio.offset, bio.size, 0)
    else:
        at, end = bio.offset, bio.offset + bio.size
        while at < end:
            place, offset, room = spot_in_strips(geom, at) if geom.kind == 'STRIPE' else spot_in_a_row(geom, at)
            size = min(room, end - at)
            yield Piece(geom.places[place], offset, size, at - bio.offset)
            at += size


def spot_in_strips(geom, at):
    """The component of a stripe that holds an offset, where it lies there, and how much room is to the strip's end."""
    strip, inside = divmod(at, geom.stripe)
    row, place = divmod(strip, len(geom.places))
    return place, row * geom.stripe + inside, geom.stripe - inside


def spot_in_a_row(geom, at):
    """The same for a concat, to the component's end."""
    place = 0
    while at >= geom.sizes[place]:
        at -= geom.sizes[place]
        place += 1
    return place, at, geom.sizes[place] - at


# Answers of disks

def misfit(bio: Bio, got: tuple) -> Optional[str]:
    """Why an answer of a disk isn't one to such a request, or None where it fits."""
    if got[0] == 'failed':
        most = 0 if bio.cmd in ('read', 'flush') else bio.size // bio.target.sector
        return None if got[1] <= most else f'of a {bio.cmd} like this at most {most} sectors can be done'
    if (got[0] == 'bytes') != (bio.cmd == 'read'):
        return f'a {bio.cmd} is not answered with {got[0]}'
    if got[0] == 'bytes' and len(got[1]) != bio.size:
        return f'{len(got[1])} bytes were delivered, and {bio.size} were asked for'
    return None


def deliver(bio: Bio, got: tuple) -> None:
    bio.phase, bio.result = UP, ('error', 'EIO') if got[0] == 'failed' else got


# Up

def up(world: World, bio: Bio) -> None:
    """The request goes up to its owner."""
    if isinstance(bio.owner, Bio):
        bio.phase = DONE
        gather(world, bio.owner)
        return
    del world.bios[bio.number]
    if isinstance(bio.owner, Line):
        world.reply(bio.owner.number, reply_text(bio.result))
    elif world.taste is bio.owner:
        world.taste.asked, world.taste.got = READ_BACK, bio.result


def gather(world: World, parent: Bio) -> None:
    """A parent goes up once all its pieces are in, with the error of the first that failed in their order."""
    children = world.children(parent)
    if any(it.phase != DONE for it in children):
        return
    errors = [it.result for it in children if it.result[0] == 'error']
    data = b''.join(it.result[1] for it in children if it.result[0] == 'bytes')
    parent.phase = UP
    parent.result = errors[0] if errors else ('bytes', data) if parent.cmd == 'read' else ('done',)
    for child in children:
        del world.bios[child.number]


def reply_text(result: tuple) -> str:
    if result[0] == 'bytes':
        return 'ok ' + runs.runs_text(result[1])
    return 'ok' if result[0] == 'done' else result[1]
