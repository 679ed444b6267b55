#!/usr/bin/env python3
"""A mesh whose each step is heard: prints a trace, which `geomrun verify` judges."""
import tazbrev

trace = tazbrev.Trace()
with tazbrev.Mesh('ram md0 512 8\nactor a\n', trace=trace) as mesh:
    with mesh.open('a', 'h', 'md0', r=1, w=1) as handle:
        handle.write(512, b'\x11' * 512)
        handle.read(0, 1024)
    print(trace.text(mesh.text()), end='')
