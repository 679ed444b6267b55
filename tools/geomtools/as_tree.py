"""tree REPORT: the mesh of a report as a tree, as `geom -t` prints it."""
from geomtools import files, trees

HEAD = ('Geom', 'Class', 'Provider')


def add_words(parser):
    trees.add_words(parser)


def rows_of(geom, geoms, rows_above, depth):
    """The rows of a geom: one for each of its providers, and below it what stands on that."""
    number = geoms.index(geom)
    name = '  ' * depth + geom.name + ' (withering)' * geom.withering
    if not geom.providers:
        yield name, geom.kind, ''
    for at, it in enumerate(geom.providers):
        yield name, geom.kind, it.name + ' (ENXIO)' * it.errored
        for other in rows_above.get((number, at), []):
            yield from rows_of(other, geoms, rows_above, depth + 1)


def main(given):
    geoms = trees.mesh_of(given.report, files.read_text(given.report), given.line)
    rows_above = trees.above(geoms)
    rows = [HEAD, *(row for geom in geoms if not geom.consumers for row in rows_of(geom, geoms, rows_above, 0))]
    widths = [max(len(row[at]) for row in rows) for at in (0, 1)]
    for row in rows:
        print(f'{row[0]:{widths[0]}}  {row[1]:{widths[1]}}  {row[2]}'.rstrip())
    return 0
