"""Access counts as sums of what is demanded above. Counts are triples of readers, writers and exclusive rights."""
from __future__ import annotations

import collections
from typing import Iterable, Mapping, Optional, Tuple

from geomtools.limits import MAX_ACCESS_COUNT
from geomtools.model.graph import Consumer, Graph, Provider

Counts = Tuple[int, int, int]
NOTHING: Counts = (0, 0, 0)
ONE_READ: Counts = (1, 0, 0)


def total(counts: Iterable[Counts]) -> Counts:
    r, w, e = map(sum, zip(NOTHING, *counts))
    return r, w, e


class Demand:
    """The counts in a graph as it stands, where `granted` has what each consumer of DEV and TASTE was granted. Once the
    graph or a grant has changed another one has to be asked."""

    def __init__(self, graph: Graph, granted: Mapping[Consumer, Counts]) -> None:
        self.granted, self.graph = granted, graph
        self.attached: dict[Provider, list[Consumer]] = collections.defaultdict(list)
        self.providers: dict[int, list[Provider]] = collections.defaultdict(list)
        for consumer in graph.consumers:
            self.attached[consumer.provider].append(consumer)
        for provider in graph.providers:
            self.providers[provider.geom.number].append(provider)
        self.known: dict[Provider, Counts] = {}

    def want(self, consumer: Consumer) -> Counts:
        """The counts that a consumer holds."""
        kind = consumer.geom.kind
        if kind in ('DEV', 'TASTE'):
            return self.granted.get(consumer, NOTHING)
        haves = [self.have(it) for it in self.providers[consumer.geom.number]]
        is_open = any(it != NOTHING for it in haves)
        return total([*haves, (0, 0, int(kind != 'NOP' and is_open))])

    def have(self, provider: Provider) -> Counts:
        """The sum of what the consumers at a provider hold."""
        if provider not in self.known:
            self.known[provider] = total(self.want(it) for it in self.attached[provider])
        return self.known[provider]

    def writers(self) -> dict[Provider, int]:
        return {it: self.have(it)[1] for it in self.graph.providers}

    def is_exclusive(self) -> bool:
        """Whether at no provider a consumer writes beside another's exclusive right."""
        for consumers in list(self.attached.values()):
            wants = [(it, self.want(it)) for it in consumers]
            writers = [it for it, want in wants if want[1]]
            holders = [it for it, want in wants if want[2]]
            if writers and holders and not (len(writers) == 1 and writers == holders):
                return False
        return True

    def refusal(self) -> Optional[str]:
        """What is against these counts, if anything is."""
        if not self.is_exclusive():
            return 'EPERM'
        if any(count > MAX_ACCESS_COUNT for it in self.graph.providers for count in self.have(it)):
            return 'EOVERFLOW'
        return None
