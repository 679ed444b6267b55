# A stripe over two image files, and what is left when one of its disks is pulled.
#
# Make the images first, in the folder in which you run it:
#     truncate -s 64K left.img right.img
# What is written stays in them: afterwards left.img begins with 4,096 bytes 11, and right.img with 4,096 bytes 22.
disk left 512
disk right 512
actor a
actor b
a stripe s 4096 left right
a open h stripe/s r1w1e0
a write h 0 11*4096 22*4096
a read h 2048 4096
a close h

# An open handle outlives the pull. Every request through it is refused, and closing it still works.
a open h stripe/s r1w0e0
b pull right
a settle
a read h 0 512
a close h

# The other disk is free again and has what was written to it.
a settle
a open k left r1w0e0
a read k 0 4096
a close k
