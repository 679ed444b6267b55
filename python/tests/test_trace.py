"""A mesh is listened to, and what it did is judged by the released program."""
import pathlib
import random
import subprocess
import unittest

import tazbrev

GEOMRUN = pathlib.Path(__file__).resolve().parents[2] / 'release' / 'geomrun'
HEADER = '# A comment.\ndisk left 512\ndisk right 512\nram spare 512 64\ndisk late 512 later\nactor a\nactor b\n'


class Worn(tazbrev.MemoryDisk):
    """Each seventh call fails, after a sector of it."""

    def __init__(self, sectors):
        super().__init__(sectors)
        self.calls = 0

    def write(self, first, data):
        self.calls += 1
        if self.calls % 7 == 0:
            raise tazbrev.DiskError('worn', done=0)
        super().write(first, data)


def has_call():
    try:
        return bool(tazbrev._library.library().due)
    except tazbrev.LibraryError:
        return False


def verdict(text):
    return subprocess.run([str(GEOMRUN), 'verify'], input=text.encode(), stdout=subprocess.PIPE).stdout.decode().strip()


def use(mesh, draw, count):
    """Gives so many commands that are drawn, of which many are refused, and lets some requests pass each other."""
    handles = []
    for _ in range(count):
        try:
            kind = draw.randrange(10)
            if kind == 0 or not handles:
                name, provider = f'h{len(handles)}', draw.choice(['left', 'stripe/s', 'spare', 'label/x', 'nono'])
                handles.append(mesh.open(draw.choice('ab'), name, provider, r=1, w=draw.randrange(2)))
            elif kind == 1:
                mesh.command(f'a {draw.choice(["pull", "insert"])} {draw.choice(["spare", "late", "right"])}')
            elif kind == 2:
                mesh.command(draw.choice(['b stripe s 4096 left right', 'b destroy stripe s', 'a mesh', 'b label left x']))
            elif kind == 3:
                draw.choice(handles).close()
            else:
                ask(draw.choice(handles), draw)
        except tazbrev.GeomError:
            pass
    mesh.wait()


def ask(handle, draw):
    """Gives a request that is drawn."""
    offset, length = 512 * draw.randrange(140), 512 * draw.randrange(1, 20)
    kind = draw.randrange(4)
    if kind == 0:
        handle.submit_read(offset, length)
    elif kind == 1:
        handle.submit_write(offset, bytes([draw.randrange(256)]) * length)
    elif kind == 2:
        handle.submit_delete(offset, length)
    else:
        handle.submit_flush()


@unittest.skipUnless(has_call(), 'the library has no call tzb_core_due')
class Traces(unittest.TestCase):
    def traced(self, seed, count=150):
        trace, draw = tazbrev.Trace(), random.Random(seed)
        with tazbrev.Mesh(HEADER, [Worn(64), Worn(64), Worn(32)], trace=trace) as mesh:
            use(mesh, draw, count)
            return trace, mesh.text()

    def test_each_history_is_legal(self):
        for seed in range(12):
            trace, mesh = self.traced(seed)
            with self.subTest(seed=seed):
                self.assertEqual(verdict(trace.text(mesh)), 'yes')
                self.assertEqual(len(trace.replies), len(trace.script) - 7)

    def test_a_step_less_is_found(self):
        trace, mesh = self.traced(1)
        del trace.steps[-1]
        self.assertNotEqual(verdict(trace.text(mesh)), 'yes')

    def test_another_reply_is_found(self):
        trace, mesh = self.traced(2)
        line = max(trace.replies)
        trace.add_reply(line, 'EDEEP')
        self.assertEqual(verdict(trace.text(mesh)), 'no: report')

    def test_a_listener_hears_each_step(self):
        class Counted(tazbrev.Trace):
            heard = 0

            def add_step(self, step):
                super().add_step(step)
                self.heard += step.startswith('% 0 ')

        trace = Counted()
        with tazbrev.Mesh('ram md0 512 16\nactor a\n', trace=trace) as mesh:
            mesh.open('a', 'h', 'md0', r=1).read(0, 512)
            self.assertEqual(trace.heard, mesh.steps)


if __name__ == '__main__':
    unittest.main()
