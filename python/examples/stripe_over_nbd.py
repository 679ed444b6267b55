#!/usr/bin/env python3
"""stripe_over_nbd [PLUGIN]: serves a stripe of two new files over NBD, has a client write to it and read it back, and
says what stands in the files afterwards. PLUGIN is nbdkit-tazbrev-plugin.so, or `tazbrev` where it is installed."""
import pathlib
import socket
import struct
import subprocess
import sys
import tempfile
import time

SCRIPT = '# A stripe over two files.\ndisk left 512\ndisk right 512\nactor a\na stripe s 4096 left right\n'
READ, WRITE, LEAVE, FLUSH = range(4)


class Client:
    """A client of NBD at a socket, for one export. It asks one thing at a time."""

    def __init__(self, path, export=b''):
        self.socket = socket.socket(socket.AF_UNIX)
        self.socket.connect(str(path))
        self.file = self.socket.makefile('rwb')
        if self.file.read(18)[:16] != b'NBDMAGICIHAVEOPT':
            raise OSError('the server does not speak NBD')
        self.send(struct.pack('>I8sII', 3, b'IHAVEOPT', 1, len(export)) + export)
        self.size = struct.unpack('>QH', self.file.read(10))[0]

    def send(self, data):
        self.file.write(data)
        self.file.flush()

    def ask(self, kind, offset=0, length=0, data=b''):
        self.send(struct.pack('>IHHQQI', 0x25609513, 0, kind, 0, offset, length or len(data)) + data)
        error = struct.unpack('>IIQ', self.file.read(16))[1]
        if error:
            raise OSError(error, 'the server replies with an error')
        return self.file.read(length)

    def leave(self):
        self.send(struct.pack('>IHHQQI', 0x25609513, 0, LEAVE, 0, 0, 0))
        self.file.read()
        self.socket.close()


def mesh_of(path):
    """The mesh as text, once no client has it open any more."""
    for _ in range(100):
        client = Client(path, b'@mesh')
        text = client.ask(READ, length=client.size).decode().rstrip('\0')
        client.leave()
        if 'stripe/s size 2097152 sector 512 r0w0e0' in text:
            break
        time.sleep(0.02)
    return text


def use(path):
    client = Client(path)
    print(client.size)
    client.ask(WRITE, 0, data=b'\x11' * 4096)
    client.ask(WRITE, 4096, data=b'\x22' * 4096)
    if client.ask(READ, 4096, 4096) != b'\x22' * 4096:
        print('the server gives other bytes than were written')
    client.ask(FLUSH)
    client.leave()
    print(mesh_of(path), end='')


def main(plugin='tazbrev'):
    with tempfile.TemporaryDirectory() as room:
        room = pathlib.Path(room)
        images = {name: room / f'{name}.img' for name in ('left', 'right')}
        for image in images.values():
            image.write_bytes(bytes(1 << 20))
        (room / 'stripe.geom').write_text(SCRIPT)
        server = subprocess.Popen(['nbdkit', '-f', '-U', room / 'socket', plugin, f'script={room}/stripe.geom',
                                   *(f'disk={name}:{image}' for name, image in images.items()), 'provider=stripe/s'])
        try:
            while not (room / 'socket').exists() and server.poll() is None:
                time.sleep(0.01)
            use(room / 'socket')
        finally:
            server.terminate()
            server.wait()
        for name, image in images.items():
            print(f'{name} begins with {image.read_bytes()[:4].hex()}')


main(*sys.argv[1:])
