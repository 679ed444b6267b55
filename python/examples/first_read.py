#!/usr/bin/env python3
"""A disk in memory: writes a sector, reads it back, and is refused what lies past its end."""
import tazbrev

with tazbrev.Mesh('ram md0 512 16\nactor a\n') as mesh:
    with mesh.open('a', 'h', 'md0', r=1, w=1) as handle:
        handle.write(1024, b'hello'.ljust(512, b'\0'))
        print('written: well')
        data = handle.read(1024, 512)
        print('read: well')
        print(data.rstrip(b'\0').decode())
        try:
            handle.write(16 * 512, bytes(512))
        except tazbrev.GeomError as error:
            print(f'write past the end: TZB_{error.name}: {error.about}')
