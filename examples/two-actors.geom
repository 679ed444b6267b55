# Two actors, who don't wait for each other: ./geomrun run < examples/two-actors.geom, a few times. `step` gives the
# replies of one order, the same each time.
ram left 512 8
ram right 512 8
ram single 512 8
ram shared 512 8
actor a
actor b
# Each has a disk of its own here, and waits before it reads what it wrote. So these replies come each time.
a open h left r1w1e0
b open h right r1w1e0
a write h 512 aa*512
b write h 512 bb*512
a sync
b sync
a read h 512 512
b read h 512 512
# Both want this disk alone. The first to come gets it, and the other is answered EPERM.
a open x single r0w1e1
b open x single r0w1e1
# One writes what the other reads. So the read has the bytes from before the write, or those from after it.
a open s shared r0w1e0
b open s shared r1w0e0
a write s 0 11*512
b read s 0 512
