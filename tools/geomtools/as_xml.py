"""xml REPORT: the mesh of a report with the element names of FreeBSD's kern.geom.confxml."""
from xml.sax.saxutils import escape

from geomtools import files, reports, trees

# Classes have ids from 0x1000 on, geoms from 0x2000 on, and so on; each geom leaves room for 256 providers and
# consumers. An id says nothing but which element is meant.
CLASS, GEOM, PROVIDER, CONSUMER = 0x1000, 0x100000, 0x10000000, 0x20000000


def add_words(parser):
    trees.add_words(parser)


def element(name, text):
    return f'<{name}>{escape(str(text))}</{name}>'


def part_id(base, number, at):
    return f'0x{base + 256 * number + at:x}'


def consumer_lines(number, at, consumer, names):
    place = names.get(consumer.provider)
    yield f'<consumer id="{part_id(CONSUMER, number, at)}">'
    yield f'  <geom ref="0x{GEOM + number:x}"/>'
    if place is not None:
        yield f'  <provider ref="{part_id(PROVIDER, *place)}"/>'
    yield '  ' + element('mode', reports.counts_text(consumer.counts))
    yield '</consumer>'


def provider_lines(number, at, provider):
    yield f'<provider id="{part_id(PROVIDER, number, at)}">'
    yield f'  <geom ref="0x{GEOM + number:x}"/>'
    yield '  ' + element('mode', reports.counts_text(provider.counts))
    yield '  ' + element('name', provider.name)
    yield '  ' + element('mediasize', provider.size)
    yield '  ' + element('sectorsize', provider.sector)
    yield '  ' + element('stripesize', 0)
    yield '  ' + element('stripeoffset', 0)
    if provider.errored:
        yield '  <wither/>'
    yield '</provider>'


def geom_lines(number, geom, names, class_id):
    yield f'<geom id="0x{GEOM + number:x}">'
    yield f'  <class ref="0x{class_id:x}"/>'
    yield '  ' + element('name', geom.name)
    yield '  ' + element('rank', geom.rank)
    if geom.withering:
        yield '  <wither/>'
    for at, it in enumerate(geom.consumers):
        yield from ('  ' + line for line in consumer_lines(number, at, it, names))
    for at, it in enumerate(geom.providers):
        yield from ('  ' + line for line in provider_lines(number, at, it))
    yield '</geom>'


def lines_of(geoms):
    """The lines of a mesh, class by class, each in the order in which its first geom stands."""
    names = trees.providers_by_name(geoms)
    yield '<mesh>'
    for at, kind in enumerate(dict.fromkeys(geom.kind for geom in geoms)):
        yield f'  <class id="0x{CLASS + at:x}">'
        yield '    ' + element('name', kind)
        for number, geom in enumerate(geoms):
            if geom.kind == kind:
                yield from ('    ' + line for line in geom_lines(number, geom, names, CLASS + at))
        yield '  </class>'
    yield '</mesh>'


def main(given):
    for line in lines_of(trees.mesh_of(given.report, files.read_text(given.report), given.line)):
        print(line)
    return 0
