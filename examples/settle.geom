# In threads what a close sets off isn't done at once: ./geomrun run < examples/settle.geom, a few times.
ram md0 512 64
actor a
a open h md0 r1w1e0

# A partition table with one slice, of 8 sectors from sector 1 on. The sync waits for the write, so that the close isn't
# refused with EBUSY.
a write h 0 00*450 a5*1 00*3 01*1 00*3 08*1 00*51 55*1 aa*1
a sync
a close h

# The close offers the disk, and the event worker looks at it when it comes to it. So this may come too early: then the
# answer is ENOENT.
a open p md0s1 r1w0e0

# A settle waits until nothing is left to do, so behind it the slice stands.
a settle
a open q md0s1 r1w0e0
a read q 0 512
