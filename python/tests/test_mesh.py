"""A mesh as its callers see it."""
import concurrent.futures
import gc
import os
import pathlib
import tempfile
import threading
import unittest
import warnings

import tazbrev
from tazbrev import errors

TWO = 'ram d0 512 64\nram d1 512 64\nactor a\nactor b\n'
BY_HAND = 'disk md0 512\nactor a\n'


class SlowDisk(tazbrev.MemoryDisk):
    """Answers writes when it is told to."""

    def __init__(self, sectors=64):
        super().__init__(sectors)
        self.asked = []

    def write(self, first, data):
        later = tazbrev.Pending()
        self.asked.append((later, first, data))
        return later

    def answer(self):
        later, first, data = self.asked.pop(0)
        super().write(first, data)
        later.answer()


class OddDisk(tazbrev.MemoryDisk):
    """Does what `does` says at a read, a write or a flush."""

    does = staticmethod(lambda: None)

    def read(self, first, count):
        return self.does() if first == 7 else super().read(first, count)

    def write(self, first, data):
        return self.does()

    def flush(self):
        return self.does()


def raising(fault):
    def does():
        raise fault
    return does


class Requests(unittest.TestCase):
    def test_what_is_written_is_read(self):
        with tazbrev.Mesh('ram md0 4096 8\nactor a\n') as mesh, mesh.open('a', 'h', 'md0', r=1, w=1) as handle:
            handle.write(4096, bytearray(b'5' * 8192))
            handle.delete(8192, 4096)
            handle.flush()
            self.assertEqual(handle.read(0, 16384), bytes(4096) + b'5' * 4096 + bytes(8192))
            self.assertEqual(mesh.waiting, 0)
            self.assertGreater(mesh.steps, 4)

    def test_each_wrong_request_has_its_error(self):
        with tazbrev.Mesh(TWO) as mesh:
            handle = mesh.open('a', 'h', 'd0', r=1)
            for kind, call in (
                    (tazbrev.RangeError, lambda: handle.read(1, 512)),
                    (tazbrev.RangeError, lambda: handle.read(0, 33280)),
                    (tazbrev.TransferError, lambda: handle.read(64 * 512, 512)),
                    (tazbrev.AccessError, lambda: handle.write(0, bytes(512))),
                    (tazbrev.FormError, lambda: handle.write(0, b'')),
                    (tazbrev.FormError, lambda: handle.read(-512, 512)),
                    (tazbrev.FormError, lambda: mesh.open('a', 'h' * 17, 'd0', r=1)),
                    (tazbrev.FormError, lambda: mesh.open('a', 'g', 'd0')),
                    (tazbrev.FormError, lambda: mesh.open('a', 'ä', 'd0', r=1)),
                    (tazbrev.NameInUseError, lambda: mesh.open('a', 'h', 'd1', r=1)),
                    (tazbrev.NotFoundError, lambda: mesh.open('a', 'g', 'd2', r=1)),
                    (tazbrev.UnfitError, lambda: mesh.open('c', 'g', 'd0', r=1)),
                    (tazbrev.NotFoundError, lambda: mesh.pull('d7')),
                    (tazbrev.BusyError, lambda: mesh.insert('d1')),
                    (TypeError, lambda: handle.read('0', 512)),
                    (TypeError, lambda: handle.write(0, 'text'))):
                self.assertRaises(kind, call)
            handle.close()
            self.assertRaises(tazbrev.HandleError, handle.read, 0, 512)

    def test_each_errno_has_its_class(self):
        for number, kind in errors.GEOM_ERRORS.items():
            self.assertTrue(issubclass(kind, tazbrev.GeomError))
            self.assertEqual((kind.number, kind.name), (number, str(kind()).split(':')[0]))
            host = None if kind.name == 'EDEEP' else getattr(__import__('errno'), kind.name)
            self.assertEqual(kind.errno, host)
        self.assertIsInstance(errors.reply(77), tazbrev.GeomError)

    def test_many_requests_are_out(self):
        with tazbrev.Mesh(TWO) as mesh:
            mesh.command('a stripe s 512 d0 d1')
            handle = mesh.open('a', 'h', 'stripe/s', r=1, w=1)
            writes = [handle.submit_write(512 * it, bytes([it]) * 512) for it in range(100)]
            self.assertEqual(mesh.waiting, 100)
            self.assertRaises(tazbrev.BusyError, handle.close)
            told = []
            writes[0].add_done_callback(told.append)
            self.assertEqual(sorted(it.token for it in mesh.as_completed(writes)), [it.token for it in writes])
            self.assertEqual(told, writes[:1])
            reads = [handle.submit_read(512 * it, 512) for it in range(100)]
            self.assertEqual([it.result()[0] for it in reversed(reads)], list(range(99, -1, -1)))

    def test_a_with_waits_for_its_own_requests(self):
        disk = SlowDisk()
        with tazbrev.Mesh('disk md0 512\nram md1 512 64\nactor a\n', [disk]) as mesh:
            other = mesh.open('a', 'g', 'md0', w=1).submit_write(0, bytes(512))
            with mesh.open('a', 'h', 'md1', w=1) as handle:
                request = handle.submit_write(0, bytes(512))
            self.assertEqual((request.done(), other.done()), (True, False))

    def test_a_callback_that_fails_stops_nothing(self):
        with tazbrev.Mesh(TWO) as mesh, mesh.open('a', 'h', 'd0', w=1) as handle:
            request, told = handle.submit_flush(), []
            request.add_done_callback(lambda _: 1 // 0)
            request.add_done_callback(told.append)
            with self.assertLogs('tazbrev', 'ERROR'):
                mesh.run()
            self.assertEqual(told, [request])

    def test_a_closed_mesh_answers_so(self):
        disk = SlowDisk()
        mesh = tazbrev.Mesh(BY_HAND, [disk])
        handle = mesh.open('a', 'h', 'md0', w=1)
        request = handle.submit_write(0, bytes(512))
        mesh.run()
        mesh.close()
        mesh.close()
        disk.answer()
        self.assertIsInstance(request.exception(), tazbrev.ClosedError)
        self.assertRaises(tazbrev.ClosedError, handle.flush)
        self.assertRaises(tazbrev.ClosedError, mesh.run)


class Disks(unittest.TestCase):
    def mesh(self, disk):
        mesh = tazbrev.Mesh(BY_HAND, {'md0': disk})
        self.addCleanup(mesh.close)
        return mesh, mesh.open('a', 'h', 'md0', r=1, w=1)

    def test_a_late_answer_comes_from_any_thread(self):
        disk = SlowDisk()
        mesh, handle = self.mesh(disk)
        request = handle.submit_write(0, b'x' * 512)
        mesh.run()
        self.assertFalse(request.done())
        self.assertRaises(TimeoutError, request.result, timeout=0.01)
        threading.Timer(0.05, disk.answer).start()
        self.assertIsNone(request.result(timeout=30))
        self.assertEqual(handle.read(0, 512), b'x' * 512)

    def test_a_disk_may_answer_by_an_executor(self):
        class Pooled(tazbrev.MemoryDisk):
            def read(self, first, count):
                return pool.submit(super().read, first, count)

            def write(self, first, data):
                return pool.submit(super().write, first, data)

        with concurrent.futures.ThreadPoolExecutor(2) as pool:
            mesh, handle = self.mesh(Pooled(64))
            handle.write(0, b'y' * 4096)
            self.assertEqual(handle.read(512, 512), b'y' * 512)

    def test_a_disk_that_fails_fails_the_request(self):
        disk = OddDisk(64)
        mesh, handle = self.mesh(disk)
        cancelled = tazbrev.Pending()
        cancelled.cancel()
        for does in (raising(tazbrev.DiskError('broken', done=1)), raising(OSError('broken')), lambda: 7,
                     raising(tazbrev.DiskError('more than all', done=99)), lambda: b'short', lambda: cancelled):
            disk.does = does
            for call in (lambda: handle.read(7 * 512, 512), lambda: handle.write(512, bytes(1024)), handle.flush):
                self.assertRaises(tazbrev.TransferError, call)
                self.assertIsInstance(mesh.last_fault, Exception)
        disk.does = lambda: None
        handle.flush()

    def test_a_pulled_disk_withers_while_a_request_is_out(self):
        disk = SlowDisk()
        mesh, handle = self.mesh(disk)
        request = handle.submit_write(0, bytes(512))
        mesh.run()
        mesh.pull('md0')
        self.assertTrue(mesh.list()[0].is_withering)
        self.assertEqual(mesh.provider('md0').error, 'ENXIO')
        disk.answer()
        self.assertIsNone(request.exception())
        self.assertEqual(mesh.list(), [])

    def test_an_answer_that_lacked_memory_is_given_again(self):
        mesh, handle = self.mesh(tazbrev.MemoryDisk(64))
        core, lacks = mesh._core, [errors.MemoryWantingError('')] * 2

        def answer_done(bio):
            if lacks:
                raise lacks.pop()
            type(core).answer_done(core, bio)

        core.answer_done = answer_done
        request = handle.submit_write(0, b'x' * 512)
        for _ in range(2):
            self.assertRaises(MemoryError, mesh.run)
        mesh.run()
        self.assertIsNone(request.exception())
        self.assertEqual(handle.read(0, 512), b'x' * 512)

    def test_an_interrupt_is_raised_and_the_request_failed(self):
        disk = OddDisk(64)
        mesh, handle = self.mesh(disk)
        disk.does = raising(KeyboardInterrupt())
        request = handle.submit_flush()
        self.assertRaises(KeyboardInterrupt, mesh.run)
        self.assertIsInstance(request.exception(), tazbrev.TransferError)

    def test_an_image_keeps_what_is_written(self):
        with tempfile.TemporaryDirectory() as folder:
            path = pathlib.Path(folder) / 'md0.img'
            path.write_bytes(bytes(64 * 512))
            with tazbrev.FileDisk(path) as disk:
                self.assertRaises(OSError, tazbrev.FileDisk, path)
                mesh, handle = self.mesh(disk)
                handle.write(512, b'x' * 1024)
                handle.delete(1024, 512)
                handle.flush()
                self.assertEqual(handle.read(512, 1024), b'x' * 512 + bytes(512))
                os.truncate(path, 1024)
                self.assertRaises(tazbrev.TransferError, handle.read, 1024, 512)
            self.assertEqual(path.read_bytes(), bytes(512) + b'x' * 512)
            path.write_bytes(bytes(100))
            self.assertRaises(ValueError, tazbrev.FileDisk, path)

    def test_a_disk_is_pulled_and_comes_back(self):
        mesh, handle = self.mesh(tazbrev.MemoryDisk(64))
        mesh.pull('md0')
        self.assertRaises(tazbrev.GoneError, handle.read, 0, 512)
        self.assertRaises(tazbrev.GoneError, mesh.pull, 'md0')
        handle.close()
        self.assertRaises(tazbrev.NotFoundError, mesh.provider, 'md0')
        mesh.insert('md0')
        self.assertEqual(mesh.provider('md0'), tazbrev.Provider('md0', 32768, 512, tazbrev.Counts(0, 0, 0)))


class Meshes(unittest.TestCase):
    def test_a_header_that_is_none_has_its_line(self):
        for header, disks, line in (('ram md0 513 8\n', (), 1), ('actor a\nactor a\n', (), 2), ('x\n', (), 1),
                                    ('disk md0 512\n', (), 1), ('ram md0 512\n', (), 1), ('ram md0 512 0x1\n', (), 1),
                                    ('ram md0 512 8\nactor a\na mesh\n', (), 3), ('ram md0 4096 99999999\n', (), 1),
                                    ('disk md0 4096\n', [tazbrev.MemoryDisk(8)], 0),
                                    ('actor a\n', [tazbrev.MemoryDisk(8)], 0), ('actor a\n', {'md0': None}, 0)):
            with self.assertRaises(tazbrev.HeaderError, msg=header) as caught:
                tazbrev.Mesh(header, disks)
            self.assertEqual(caught.exception.line, line, header)

    def test_the_mesh_as_rows(self):
        with tazbrev.Mesh(TWO) as mesh:
            mesh.command('a concat c d0 d1')
            handle = mesh.open('b', 'h', 'concat/c', r=1, e=1)
            geoms = {it.name: it for it in mesh.list()}
            self.assertEqual(sorted(geoms), ['c', 'd0', 'd1'])
            self.assertEqual(geoms['c'].kind, 'CONCAT')
            self.assertEqual(geoms['c'].consumers[0], tazbrev.Consumer('d0', tazbrev.Counts(1, 0, 2)))
            self.assertEqual(str(geoms['c'].providers[0].counts), 'r1w0e1')
            self.assertIn('geom CONCAT c rank 2\n', mesh.text())
            self.assertRaises(tazbrev.BusyError, mesh.command, 'a destroy concat c')
            handle.close()
            mesh.command('a destroy concat c')
            self.assertEqual(len(mesh.list()), 2)

    def test_the_generation_says_when_to_list_again(self):
        with tazbrev.Mesh(TWO) as mesh, mesh.open('a', 'h', 'd0', r=1, w=1) as handle:
            seen, text = mesh.generation, mesh.text()
            handle.write(0, b'x' * 1024)
            handle.delete(512, 512)
            handle.flush()
            handle.read(0, 1024)
            mesh.command('a sync')
            self.assertEqual((mesh.generation, mesh.text()), (seen, text))
            for change in (lambda: mesh.open('b', 'g', 'd1', r=1), lambda: mesh.command('b close g'),
                           lambda: mesh.command('a concat c d0 d1'), lambda: mesh.command('a destroy concat c'),
                           lambda: mesh.pull('d1'), lambda: mesh.insert('d1')):
                change()
                self.assertNotEqual(mesh.text(), text)
                self.assertGreater(mesh.generation, seen)
                seen, text = mesh.generation, mesh.text()
        self.assertEqual(mesh.generation, 0)

    def test_commands_are_lines_of_a_script(self):
        with tazbrev.Mesh(TWO) as mesh:
            mesh.command('a open h d0 r1w1e0')
            mesh.command('a write h 0 5a*512')
            self.assertEqual(mesh.command('a read h 0 512'), b'Z' * 512)
            mesh.command('a sync')
            mesh.command('b settle')
            for line in ('', '# nothing', 'actor c', 'a reads h', 'c mesh', 'a close h\na close h', 'a  close h'):
                self.assertRaises(tazbrev.FormError, mesh.command, line)
            self.assertRaises(tazbrev.NotFoundError, mesh.command, 'a nop d7 0 0 0')

    def test_another_thread_is_refused(self):
        with tazbrev.Mesh(TWO) as mesh, concurrent.futures.ThreadPoolExecutor(1) as pool:
            self.assertRaises(tazbrev.ThreadError, pool.submit(mesh.run).result)
            pool.submit(mesh.adopt).result()
            pool.submit(mesh.command, 'a open h d0 r1w1e0').result()
            self.assertRaises(tazbrev.ThreadError, mesh.command, 'a close h')
            mesh.adopt()
            mesh.command('a close h')

    def test_a_mesh_that_is_let_go_is_closed(self):
        with warnings.catch_warnings():
            warnings.simplefilter('error')
            for _ in range(20):
                mesh = tazbrev.Mesh(TWO)
            del mesh
            gc.collect()

    def test_a_text_of_another_form_is_refused(self):
        from tazbrev import rows
        for text in ('geom DISK\n', '  consumer md0 r1w0e1\n', 'geom DISK md0 rank 1 dead\n', 'yes\n'):
            self.assertRaises(ValueError, rows.parse, text)


if __name__ == '__main__':
    unittest.main()
