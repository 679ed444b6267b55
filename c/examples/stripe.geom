# A stripe over two files.
disk left 512
disk right 512
actor a
a stripe s 4096 left right
