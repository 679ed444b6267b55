# Logical partitions: a chain of links inside an extended slice.
ram md0 512 64
actor a
a open h md0 r1w1e0

# The partition table: an extended slice (type 05) of 63 sectors from sector 1 on.
a write h 0 00*450 05*1 00*3 01*1 00*3 3f*1 00*51 55*1 aa*1

# Its first sector is the first link. The first entry is a partition of 4 sectors, from one sector behind the link on; the
# second entry leads to the next link, 10 sectors behind the start of the slice.
a write h 512 00*450 a5*1 00*3 01*1 00*3 04*1 00*7 05*1 00*3 0a*1 00*3 05*1 00*35 55*1 aa*1

# The second link has a partition of 3 sectors, and no next one.
a write h 5632 00*450 a5*1 00*3 01*1 00*3 03*1 00*51 55*1 aa*1

# The first sector of the second partition.
a write h 6144 77*512
a close h

# The slice is found, and on it the chain: a provider for each partition.
a mesh
a open p md0s1l2 r1w0e0
a read p 0 512

# A partition ends where its link says.
a read p 1024 1024
