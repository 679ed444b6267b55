"""The fixtures of tazbrev.pytest_plugin. Only pytest runs these."""
import unittest

import tazbrev

try:
    import pytest
except ImportError:
    raise unittest.SkipTest('pytest is not here')


def test_a_mesh_over_two_disks(mesh, memory_disks):
    with mesh.open('b', 'h', 'md1', w=1) as handle:
        handle.write(0, b'x' * 512)
    assert memory_disks[1].data[:512] == b'x' * 512
    assert [it.name for it in mesh.list()] == ['md0', 'md1']


@pytest.mark.tazbrev(disks=3, sectors=16, sector=4096, actors=('x',))
def test_a_mark_says_how_many(mesh, memory_disks):
    assert mesh.actors == ['x'] and len(memory_disks) == 3
    assert mesh.provider('md2') == tazbrev.Provider('md2', 65536, 4096, tazbrev.Counts(0, 0, 0))
