# A disk gets a name that stays with it: a label in its last sector, found again when the disk comes back.
ram md0 512 2048
actor a
a open h md0 r0w1e0
a label h backup
a close h

# The provider that the label gives is one sector shorter than the disk.
a open k label/backup r1w1e0
a write k 0 5a*512
a close k
a mesh

# Pulled and plugged in again, the disk is known by the same name.
a pull md0
a settle
a open k label/backup r1w0e0
a insert md0
a settle
a open k label/backup r1w0e0
a read k 0 512
a close k
