# A concat that is put together by the records on its disks, in whatever order they are found.
ram md0 512 8
ram md1 512 8 later
actor a

# Each disk gets a record in its last sector: this is place 1 of the 2 of the concat v, whose id is 7.
a open h md0 r0w1e0
a mark h concat v 7 1 2
a close h

# The close let it be found. Place 0 is still empty, so there is a geom, and no provider yet.
a mesh
a open k concat/v r1w0e0

# The disk with place 0 comes, and its record is found in the same way.
a insert md1
a open h md1 r0w1e0
a mark h concat v 7 0 2
a close h

# Now the concat stands: seven sectors of md1 and then seven of md0. These requests lie on both.
a open k concat/v r1w1e0
a write k 3072 55*1024
a delete k 3584 512
a read k 3072 1024
a close k

# Destroyed by hand it goes, and the records stay. Each disk is looked at again when its next writer closes.
a destroy concat v
a settle
a open k concat/v r1w0e0
a open h md0 r0w1e0
a close h
a open h md1 r0w1e0
a close h
a open k concat/v r1w0e0
a read k 3072 1024
