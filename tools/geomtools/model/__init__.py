"""A model of the mesh in Python, for tests and tools. It was written from the definitions (crates/geo_model/specs) and
the rules of docs/PROFILE.md, has all of the profile, and shares nothing with the program: each question is answered by
a walk over plain lists.

`Mesh` is the mesh of a plan, one step at a time: `possible` tells which steps could be made, `against` what is against
one, and `make` makes it, also the answer of a disk. So something that runs can be followed while it runs: a plan may
have disks and actors alone, `give` brings each command when it comes, and `replies` has the answers. `Disks` is what
the disks hold, and `orders` has runs of whole plans.
"""
from geomtools.model.counts import NOTHING, total
from geomtools.model.disks import Disks
from geomtools.model.mesh import Mesh
from geomtools.model.orders import finish, fixed, run, run_anyhow, sweep
from geomtools.model.steps import step_of, step_text

__all__ = ['NOTHING', 'Disks', 'Mesh', 'finish', 'fixed', 'run', 'run_anyhow', 'step_of', 'step_text', 'sweep', 'total']
