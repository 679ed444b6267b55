# A concat grows while it is open: the room of one more disk is there at once.
ram md0 512 64
ram md1 512 64
ram md2 512 128
actor a
a concat c md0 md1
a open h concat/c r1w1e0

# Across the seam of the first two disks.
a write h 32256 aa*512 bb*512
a read h 65536 512
a append c md2
a read h 65536 512
a write h 130560 cc*512

# A concat can't stand on itself, and while it is open for writing a disk of its own can't join it once more.
a append c concat/c
a append c md0
