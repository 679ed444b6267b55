# Partitions are found when the last writer of a disk closes it.
ram md0 512 2048
actor a

# A partition table: a slice of 1,024 sectors from sector 64 on, and one of 256 sectors from sector 1,088 on.
a open h md0 r1w1e0
a write h 0 00*450 a5*1 00*3 40*1 00*4 04*1 00*6 a5*1 00*3 40*1 04*1 00*3 01*1 00*34 55*1 aa*1
# The first sector of the first slice.
a write h 32768 11*512
# While somebody may still write, nothing is looked at.
a open p md0s1 r1w0e0
a close h

# The close offered the disk, so the slices stand now.
a open p md0s1 r1w0e0
a read p 0 512

# A slice ends where its table says, and nothing is read past it.
a open q md0s2 r1w0e0
a read q 130560 1024
