"""What the checks here share with `tools/geom`."""
import pathlib, sys

sys.path.append(str(pathlib.Path(__file__).resolve().parent.parent / 'tools'))

from geomtools import drawing, explain, images, model, reports, runs, scripts, tables, traces
