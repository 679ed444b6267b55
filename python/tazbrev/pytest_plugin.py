"""Fixtures for pytest.

- `memory_disks`: two disks in memory of 1,024 sectors of 512 bytes.
- `mesh`: a mesh over them, as `md0` and `md1`, with the actors `a` and `b`. It is closed behind the test.

A mark says otherwise: `@pytest.mark.tazbrev(disks=3, sectors=64, sector=4096, actors=('x',))`.
"""
from __future__ import annotations

from typing import Any, Dict, Iterator, List

import pytest

from .disks import MemoryDisk
from .mesh import Mesh

_USUAL: Dict[str, Any] = {'disks': 2, 'sectors': 1024, 'sector': 512, 'actors': ('a', 'b')}


def pytest_configure(config: Any) -> None:
    config.addinivalue_line('markers', 'tazbrev(disks, sectors, sector, actors): what the fixture mesh consists of')


def _wanted(request: Any) -> Dict[str, Any]:
    mark = request.node.get_closest_marker('tazbrev')
    wanted = dict(mark.kwargs) if mark else {}
    unknown = sorted(set(wanted) - set(_USUAL))
    if unknown or mark and mark.args:
        raise pytest.UsageError(f'the mark tazbrev takes {", ".join(_USUAL)} by name')
    return {**_USUAL, **wanted}


@pytest.fixture
def memory_disks(request: Any) -> List[MemoryDisk]:
    """Disks in memory, of zeros."""
    wanted = _wanted(request)
    return [MemoryDisk(wanted['sectors'], wanted['sector']) for _ in range(wanted['disks'])]


@pytest.fixture
def mesh(request: Any, memory_disks: List[MemoryDisk]) -> Iterator[Mesh]:
    """A mesh over `memory_disks`: md0, md1 and so on."""
    lines = [f'disk md{place} {disk.sector}' for place, disk in enumerate(memory_disks)]
    lines += [f'actor {it}' for it in _wanted(request)['actors']]
    with Mesh('\n'.join(lines) + '\n', memory_disks) as made:
        yield made
