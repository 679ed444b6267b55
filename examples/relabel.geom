# A slice that ends where its disk ends has its last sector in common with it. Whose is a label that stands there?
ram md0 512 8
actor a

# A partition table with one slice: the 7 sectors from sector 1 on, up to the end of the disk.
a open h md0 r1w1e0
a write h 0 00*450 a5*1 00*3 01*1 00*3 07*1 00*51 55*1 aa*1
a close h

# A label of the slice, by `label`. The disk is looked at before its slice, and has the label in its last sector too. So
# it is found there: the provider of the label has 7 sectors, and begins with the partition table.
a open p md0s1 r1w1e0
a label p vol
a close p
a mesh

# `relabel` also writes the size of the slice into the label. The disk has another size, so the label is found on the
# slice alone: its provider has 6 sectors.
a open p md0s1 r1w1e0
a relabel p vol
a close p
a open k label/vol r1w0e0
