#!/usr/bin/env python3
"""A disk goes while requests are out. Its driver answers later, and the disk is let go once it is idle."""
import tazbrev


class SlowDisk(tazbrev.MemoryDisk):
    """Keeps what it is asked, once it is slow, and answers when it is told to."""

    is_slow = False
    asked = None

    def read(self, first, count):
        if not self.is_slow:
            return super().read(first, count)
        self.asked = tazbrev.Pending(), super().read(first, count)
        return self.asked[0]

    def answer(self):
        (later, data), self.asked = self.asked, None
        later.answer(data)


def told(request):
    error = request.exception()
    return f'TZB_{error.name}' if error else 'well'


disk = SlowDisk(sectors=16)
with tazbrev.Mesh('disk md0 512\nactor a\n', [disk]) as mesh:
    handle = mesh.open('a', 'h', 'md0', r=1)
    disk.is_slow = True
    requests = [handle.submit_read(512 * place, 512) for place in range(3)]
    mesh.run()
    mesh.pull('md0')
    print(f'pulled, and {mesh.waiting} wait')
    while disk.asked:
        disk.answer()
        mesh.run()
    for name, request in zip(('first', 'second', 'third'), requests):
        print(f'{name}: {told(request)}')
    print(f'one more: {told(handle.submit_read(0, 512))}')
    handle.close()
    print(mesh.text() or 'nothing is left')
