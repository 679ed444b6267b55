"""A mesh as a tree: what stands on each provider."""
from geomtools import files, reports

# A report names the provider of a consumer, and two may have one name if one of them has an error. Then the one
# without an error is meant, for nothing is attached anew to the other.


def add_words(parser):
    parser.add_argument('report', help='what the program printed, a report or a trace, or - for standard input')
    parser.add_argument('--line', type=int, metavar='N',
                        help='the mesh that the command of line N printed, and not the last one')


def providers_by_name(geoms):
    """The provider of each name, with the number of its geom and its place there."""
    found = {}
    for number, geom in enumerate(geoms):
        for at, it in enumerate(geom.providers):
            if it.name not in found or not it.errored:
                found[it.name] = (number, at)
    return found


def mesh_of(name, text, line=None):
    """The geoms of the last mesh of a report that is in a file of this name, or of the mesh of a line."""
    lines = reports.report_of(text).splitlines()
    if not lines:
        raise files.Stop(f'{name} is empty: it has no report', 2)
    view = next((at for at, it in enumerate(lines) if it.startswith('view ')), len(lines))
    meshes = reports.meshes_of(lines[:view])
    if meshes is None:
        raise files.Stop(f"{name} isn't a report", 2)
    if line is not None and line not in meshes:
        raise files.Stop(f'{name} has no answer to line {line}', 2)
    found = meshes[max(meshes) if line is None else line]
    return reports.geoms_of(reports.last_mesh(found) if line is None and found else found)


def above(geoms):
    """For each provider, as the number of its geom and its place there, the geoms that are attached to it."""
    names, rows = providers_by_name(geoms), {}
    for geom in geoms:
        for it in geom.consumers:
            those = rows.setdefault(names.get(it.provider), [])
            if geom not in those:
                those.append(geom)
    return rows
