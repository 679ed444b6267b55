#!/usr/bin/env python3
"""Who writes excludes another who writes, as long as he has an exclusive right. Readers may stay."""
import tazbrev


def tell(what, call, *words, **rights):
    """Makes a call, says what came of it, and gives what it gave."""
    try:
        got = call(*words, **rights)
    except tazbrev.GeomError as error:
        print(f'{what}: TZB_{error.name}')
        return None
    print(f'{what}: well')
    return got


with tazbrev.Mesh('ram md0 512 16\nactor alice\nactor bob\n') as mesh:
    handle = tell('alice writes, and excludes others', mesh.open, 'alice', 'h', 'md0', r=1, w=1, e=1)
    tell('bob writes', mesh.open, 'bob', 'h', 'md0', r=1, w=1)
    tell('bob reads', mesh.open, 'bob', 'h', 'md0', r=1)
    print(mesh.text(), end='')
    tell('alice leaves', handle.close)
    tell('bob writes', mesh.open, 'bob', 'k', 'md0', r=1, w=1)
