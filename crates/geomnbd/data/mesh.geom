ram left 512 256
ram right 512 256
actor a
a stripe s 4096 left right
