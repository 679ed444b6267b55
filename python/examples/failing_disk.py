#!/usr/bin/env python3
"""A disk of one's own whose third write fails after one sector."""
import tazbrev


class FailingDisk(tazbrev.MemoryDisk):
    writes = 0

    def write(self, first, data):
        self.writes += 1
        if self.writes == 3:
            super().write(first, data[:self.sector])
            raise tazbrev.DiskError('the third write fails', done=1)
        super().write(first, data)


disk = FailingDisk(sectors=64)
with tazbrev.Mesh('disk md0 512\nactor a\n', [disk]) as mesh:
    with mesh.open('a', 'h', 'md0', w=1) as handle:
        requests = [handle.submit_write(2048 * place, b'1234'[place:place + 1] * 2048) for place in range(4)]
        for name, request in zip(('first', 'second', 'third', 'fourth'), requests):
            error = request.exception()
            print(f'{name}: {f"TZB_{error.name}" if error else "well"}')
    print(disk.data[:16 * 512:512].replace(b'\0', b'.').decode())
