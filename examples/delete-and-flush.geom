# What a DELETE and a FLUSH do, on a stripe of two disks.
ram md0 512 64
ram md1 512 64
actor a
a stripe s 8192 md0 md1
a open h stripe/s r1w1e0

# A deleted range reads as zeros. This one begins in the middle of a strip of md0, and ends in one of md1.
a write h 0 11*8192 22*8192
a delete h 4096 8192
a read h 0 16384

# A FLUSH has no range: each disk below is asked to keep all that was written to it.
a flush h

# The longest request of all lies on four strips.
a delete h 0 32768
a read h 0 16384

# A deleted range is in whole sectors, ends inside the provider, and has at most 32,768 bytes.
a delete h 0 100
a delete h 61440 8192
a delete h 0 33280

# Both need the right to write.
a open r stripe/s r1w0e0
a delete r 0 512
a flush r
