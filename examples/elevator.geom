# Requests that are out together, for `./geomrun sweep`: the disk takes them by rising place, and not as they came. Try
# `./geomrun step` as well, and compare what the reads find.
ram md0 512 64
actor a
a open h md0 r1w1e0

# Commands come before what the disk does, so both of these are out when it takes the first. The read begins at sector 0
# and the write at sector 1. So the read passes the write, and finds zeros.
a write h 512 11*512
a read h 0 1024
a sync

# Nothing passes a FLUSH. This read waits behind it, and finds what was written before.
a write h 512 22*512
a flush h
a read h 0 1024

# Nobody has waited for these, so the handle is still in use. Behind the sync it isn't.
a close h
a sync
a close h
