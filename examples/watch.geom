# The mesh while threads run: ./geomrun watch < examples/watch.geom. The last lines are the mesh as it was shown last: as
# the first actor's last `mesh` found it, where the disk is open. The number behind `view` tells how many steps had been
# made. It is 0, and the mesh that of the start, where that `mesh` was left until the threads had ended.
ram md0 512 8
actor a
a settle
a open h md0 r1w1e0
a mesh
a close h
