"""A file system on a stripe of two disks of one's own, of which one fails at a chosen request, as NBD clients see it."""
import pathlib
import shutil
import socket
import struct
import subprocess
import tempfile
import unittest

import tazbrev

TOOLS = {it: shutil.which(it, path='/usr/bin:/usr/sbin:/bin:/sbin') for it in ('mke2fs', 'e2fsck', 'nbdcopy')}
HEADER = 'disk left 512\ndisk right 512\nactor a\n'
STRIPE, REQUEST, SIZE = 4096, 32768, 8 << 20
# One request at a time, all in order, and zeros as well.
COPY = [TOOLS['nbdcopy'], f'--request-size={REQUEST}', '--requests=1', '--connections=1', '--no-extents', '--sparse=0']


class FailingDisk(tazbrev.MemoryDisk):
    """The request of a kind and a number, from 1 on, fails; a write after so many sectors."""

    def __init__(self, sectors):
        super().__init__(sectors)
        self.fails = (None, 0, 0)

    def fail_at(self, kind, number, done=0):
        self.fails = (kind, number, done)

    def is_failing(self, kind):
        if self.fails[0] == kind:
            self.fails = (kind, self.fails[1] - 1, self.fails[2])
        return self.fails[0] == kind and self.fails[1] == 0

    def read(self, first, count):
        if self.is_failing('read'):
            raise tazbrev.DiskError('this read fails')
        return super().read(first, count)

    def write(self, first, data):
        if self.is_failing('write'):
            done = self.fails[2]
            super().write(first, data[:512 * done])
            raise tazbrev.DiskError('this write fails', done)
        super().write(first, data)


class Server:
    """Serves one client of NBD, one request at a time: each is one of a handle."""

    def __init__(self, stream, handle):
        self.file, self.handle = stream.makefile('rwb'), handle

    def send(self, form, *words):
        self.file.write(struct.pack(form, *words))
        self.file.flush()

    def get(self, form):
        return struct.unpack(form, self.file.read(struct.calcsize(form)))

    def greet(self):
        """Takes an export's name, which is any. Each other option is unknown."""
        self.send('>8s8sH', b'NBDMAGIC', b'IHAVEOPT', 1)
        self.get('>I')
        while True:
            _, option, length = self.get('>8sII')
            self.file.read(length)
            if option == 1:
                return self.send('>QH124x', SIZE, 0b101)
            self.send('>QIII', 0x3e889045565a9, option, 1 << 31 | 1, 0)

    def serve(self):
        self.greet()
        while True:
            _, _, kind, cookie, offset, length = self.get('>IHHQQI')
            if kind == 2:
                return
            data, error = b'', 0
            try:
                if kind == 0:
                    data = self.handle.read(offset, length)
                elif kind == 1:
                    self.handle.write(offset, self.file.read(length))
                else:
                    self.handle.flush()
            except tazbrev.GeomError as fault:
                error = fault.errno
            self.send(f'>IIQ{len(data)}s', 0x67446698, error, cookie, data)


def striped(disks):
    """What a stripe over these disks holds."""
    held = [bytes(it.data) for it in disks]
    return b''.join(it[at:at + STRIPE] for at in range(0, len(held[0]), STRIPE) for it in held)


@unittest.skipUnless(all(TOOLS.values()), 'mke2fs, e2fsck and nbdcopy are not all here')
class FileSystem(unittest.TestCase):
    def setUp(self):
        folder = tempfile.TemporaryDirectory()
        self.addCleanup(folder.cleanup)
        self.folder = pathlib.Path(folder.name)
        subprocess.run([TOOLS['mke2fs'], '-q', '-F', '-b', '1024', '-d', pathlib.Path(__file__).parent,
                        self.folder / 'in.raw', f'{SIZE >> 10}k'], check=True, capture_output=True)
        self.image = (self.folder / 'in.raw').read_bytes()
        self.disks = [FailingDisk(SIZE // 1024), FailingDisk(SIZE // 1024)]
        mesh = tazbrev.Mesh(HEADER, self.disks)
        self.addCleanup(mesh.close)
        mesh.command(f'a stripe s {STRIPE} left right')
        self.handle = mesh.open('a', 'h', 'stripe/s', r=1, w=1)
        self.listener = socket.socket(socket.AF_UNIX)
        self.addCleanup(self.listener.close)
        self.listener.bind(str(self.folder / 'socket'))
        self.listener.listen()

    def copy(self, before=(), after=()):
        """Whether nbdcopy copies from a file to the stripe, or from there to a file."""
        uri = f'nbd+unix:///?socket={self.folder}/socket'
        with subprocess.Popen([*COPY, *before, uri, *after], stderr=subprocess.PIPE, text=True) as client:
            stream, _ = self.listener.accept()
            with stream:
                try:
                    Server(stream, self.handle).serve()
                except (OSError, struct.error):  # it leaves without a word after an error
                    pass
            said = client.stderr.read()
        if client.returncode:
            self.assertIn('Input/output error', said)
        return client.returncode == 0

    def copy_in(self):
        return self.copy(before=[self.folder / 'in.raw'])

    def copy_out(self):
        return self.copy(after=[self.folder / 'out.raw'])

    def test_a_write_fails(self):
        """All before it is there, and of its own request all but what the disk left undone."""
        number, done = 20, 3
        self.disks[1].fail_at('write', number, done)
        self.assertFalse(self.copy_in())
        end = ((number - 1) // 4 + 1) * REQUEST
        at = (2 * number - 1) * STRIPE
        left = self.image[:at + 512 * done] + bytes(STRIPE - 512 * done) + self.image[at + STRIPE:end]
        self.assertEqual(striped(self.disks), left.ljust(SIZE, b'\0'))

    def test_a_read_fails(self):
        self.assertTrue(self.copy_in())
        self.disks[0].fail_at('read', 30)
        self.assertFalse(self.copy_out())
        copied = (self.folder / 'out.raw').read_bytes()[:29 // 4 * REQUEST]
        self.assertEqual(copied, self.image[:len(copied)])

    def test_the_disk_recovers(self):
        self.disks[0].fail_at('write', 1)
        self.assertFalse(self.copy_in())
        self.assertTrue(self.copy_in())
        self.assertEqual(striped(self.disks), self.image)
        self.assertTrue(self.copy_out())
        self.assertEqual((self.folder / 'out.raw').read_bytes(), self.image)
        subprocess.run([TOOLS['e2fsck'], '-fn', self.folder / 'out.raw'], check=True, capture_output=True)


if __name__ == '__main__':
    unittest.main()
