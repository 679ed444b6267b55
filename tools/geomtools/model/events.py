"""Events, spoiling, orphaning, withering, and what is freed."""
from __future__ import annotations

import collections
from typing import Mapping

from geomtools.limits import UNTASTED_RANK
from geomtools.model.counts import NOTHING
from geomtools.model.graph import Consumer, Geom, Provider
from geomtools.model.world import NEW, ORPHAN, RESIZE, SPOIL, Taste, World

# The classes that a taste asks, in this order.
CLASSES = ('MBR', 'EBR', 'LABEL', 'CONCAT', 'STRIPE')


def wither(world: World, geom: Geom) -> None:
    """The geom withers, unless it does already, and each of its providers without an error is orphaned."""
    if geom.is_withering:
        return
    geom.is_withering = True
    for provider in world.graph.providers_of(geom):
        if not provider.has_error:
            provider.has_error = True
            world.events.append((ORPHAN, provider))


def offer_again(world: World, provider: Provider) -> None:
    """The provider is offered for taste again, unless it carries an error or its geom withers."""
    if not provider.has_error and not provider.geom.is_withering:
        world.events.append((NEW, provider))


# What follows where counts have changed; `before` has the writers that each provider had

def after_rise(world: World, before: Mapping[Provider, int]) -> None:
    """Where the writers of a provider leave zero, those are marked that have to go once it is written, and Spoil is
    posted."""
    demand = world.demand()
    for provider, had in before.items():
        if not had and demand.have(provider)[1]:
            for consumer in world.graph.attached(provider):
                if demand.want(consumer)[1] == 0 and (consumer.geom.is_automatic or consumer.geom.kind == 'TASTE'):
                    consumer.is_marked = True
            world.events.append((SPOIL, provider))


def after_fall(world: World, before: Mapping[Provider, int]) -> None:
    """Each provider whose writers came to zero is offered for taste again."""
    demand = world.demand()
    for provider, had in before.items():
        if had and not demand.have(provider)[1]:
            offer_again(world, provider)


# What an event does

def do_event(world: World) -> str:
    """Does the event at the head of the queue, and says what came of it."""
    kind, provider = world.events.popleft()
    return DEEDS[kind](world, provider)


def begin_taste(world: World, provider: Provider) -> str:
    why = why_not_tasted(world, provider)
    if why:
        return f'{provider.name} is not tasted, since {why}'
    consumer = world.graph.add_consumer(world.taster, provider)
    world.taste = Taste(provider, consumer, collections.deque(CLASSES))
    return f'a taste of {provider.name} begins'


def why_not_tasted(world: World, provider: Provider) -> str:
    """What is against a taste of a provider, or an empty text."""
    if provider.has_error:
        return 'it carries an error'
    if provider.geom.is_withering:
        return 'its geom withers'
    if world.graph.rank(provider.geom) >= UNTASTED_RANK:
        return f'its geom has rank {UNTASTED_RANK} or more'
    return 'it has a writer' if world.demand().have(provider)[1] else ''


def spoil(world: World, provider: Provider) -> str:
    marked = [it for it in world.graph.attached(provider) if it.is_marked]
    for consumer in marked:
        consumer.is_marked = False
        wither(world, consumer.geom)
    return f'{provider.name} is written, and ' + gone(marked)


def orphan(world: World, provider: Provider) -> str:
    attached = world.graph.attached(provider)
    for consumer in attached:
        if consumer.geom is world.dev:
            for handle in world.handles:
                handle.is_dead = handle.is_dead or handle.consumer is consumer
        else:
            wither(world, consumer.geom)
    return f'{provider.name} is lost, and ' + gone(attached)


def resize(world: World, provider: Provider) -> str:
    """Each automatic geom on a provider that has grown withers, if it isn't in use. The provider is offered again."""
    demand, attached = world.demand(), world.graph.attached(provider)
    outgrown = [it for it in attached if demand.want(it) == NOTHING and it.geom.is_automatic]
    for consumer in outgrown:
        wither(world, consumer.geom)
    offer_again(world, provider)
    return f'{provider.name} has grown, and ' + gone(outgrown)


def gone(consumers: list[Consumer]) -> str:
    names = [f'{it.geom.kind} {it.geom.name}' if it.geom.kind != 'DEV' else 'a handle' for it in consumers]
    return 'what is on it goes: ' + ', '.join(names) if names else 'nobody has to go'


DEEDS = {NEW: begin_taste, SPOIL: spoil, ORPHAN: orphan, RESIZE: resize}


# Freeing

def reap(world: World) -> None:
    """The first dead handle that can be reaped loses its consumer."""
    handle, before = world.to_reap(), world.demand().writers()
    world.graph.consumers.remove(handle.consumer)
    handle.consumer = None
    after_fall(world, before)


def wash(world: World) -> None:
    """The first part of a withering geom that can go is freed. A provider takes the events with it that name it."""
    part, graph = world.to_wash(), world.graph
    if isinstance(part, Provider):
        graph.providers.remove(part)
        world.events = collections.deque(it for it in world.events if it[1] is not part)
    else:
        (graph.consumers if isinstance(part, Consumer) else graph.geoms).remove(part)
