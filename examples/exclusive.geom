# Who may open a disk beside whom: nobody writes beside another's exclusive right.
ram md0 512 2048
actor alice
actor bob

# An exclusive reader: others may read, and none may write.
alice open h md0 r1w0e1
bob open r md0 r1w0e0
bob open w md0 r1w1e0
bob close r
alice close h

# The other way round: beside a writer nobody gets an exclusive right.
bob open w md0 r1w1e0
alice open h md0 r1w0e1
bob close w
alice open h md0 r1w0e1

# A concat in use holds its components exclusively, so they can't be written behind its back.
alice close h
alice concat c md0
alice open h concat/c r1w1e0
bob open w md0 r0w1e0
bob open r md0 r1w0e0
