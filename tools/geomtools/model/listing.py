"""The mesh as it is printed."""
from __future__ import annotations

from typing import Iterator

from geomtools.model.world import World


def mesh_lines(world: World) -> Iterator[str]:
    """A line for each geom but the two of handles and tastes, each with its providers and its consumers."""
    graph, demand, ranks = world.graph, world.demand(), world.graph.ranks()
    for geom in graph.geoms:
        if geom.kind in ('DEV', 'TASTE'):
            continue
        yield f'geom {geom.kind} {geom.name} rank {ranks[geom]}' + ' withering' * geom.is_withering
        for it in graph.providers_of(geom):
            counts = counts_text(demand.have(it)) + ' ENXIO' * it.has_error
            yield f'  provider {it.name} size {it.size} sector {it.sector} {counts}'
        for it in graph.consumers_of(geom):
            yield f'  consumer {it.provider.name} {counts_text(demand.want(it))}'


def counts_text(counts: tuple[int, int, int]) -> str:
    return 'r%dw%de%d' % counts
