# A disk whose every third request fails, to see how what stands above it copes.
ram md0 512 2048
ram md1 512 2048
actor a

# `nop PROVIDER OFFSET SIZE FAIL` is a window on a provider: here the whole disk. The four reads with which it is tasted
# count too, so the write is its fifth request, and the first read its sixth.
a nop md0 0 1048576 3
a open h md0.nop r1w1e0
a write h 0 11*512
a read h 0 512
a read h 0 512
a read h 0 512
a close h

# One failed piece fails the whole request of a stripe, while the other pieces are carried out.
a stripe s 512 md0.nop md1
a open h stripe/s r1w1e0
a write h 0 22*512 33*512 44*512
a read h 0 1536
