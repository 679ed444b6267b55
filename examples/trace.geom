# Which disk is asked for what? The trace tells each step: ./geomrun trace < examples/trace.geom
ram md0 512 64
ram md1 512 64
actor a

# Behind a settle nothing is left to be looked at. The disks were tasted by the requests 1 to 8; the stripe is tasted by
# four more, each of which has a piece, so by 9 to 16.
a settle
a stripe s 4096 md0 md1
a settle

# This write is request 17, from the middle of a strip of md0 to the middle of one of md1. Its pieces are 18 and 19.
# Look for `start 17`, which makes them, `take 0 18`, by which md0 is asked, `take 1 19`, by which md1 is, and `up 17`:
#     ./geomrun trace < examples/trace.geom | grep -E ' (17|18|19)( |$)'
a open h stripe/s r1w1e0
a write h 2048 11*4096
a sync

# A trace can be judged: ./geomrun trace < examples/trace.geom | ./geomrun verify
