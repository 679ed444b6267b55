"""picture REPORT: the mesh of a report as a picture (SVG), which graphviz's dot draws."""
import shutil, subprocess

from geomtools import files, reports, trees

HEAD = ('digraph mesh {', '    rankdir=BT', '    node [fontname="sans-serif", fontsize=11]',
        '    edge [fontname="sans-serif", fontsize=10]')


def add_words(parser):
    trees.add_words(parser)
    parser.add_argument('--dot', action='store_true', help='print the text for dot, and draw nothing')


def attributes(**given):
    return ' [' + ', '.join(f'{name}="{value}"' for name, value in given.items()) + ']'


def geom_lines(number, geom, providers):
    """The lines for dot of a geom, its providers and its consumers; providers have the numbers of each name."""
    node = f'geom{number}'
    marks = dict(style='dashed') if geom.withering else {}
    text = f'{geom.kind} {geom.name}\\nrank {geom.rank}' + '\\nwithering' * geom.withering
    yield node + attributes(shape='box', label=text, **marks)
    for at, it in enumerate(geom.providers):
        marks = dict(color='red', fontcolor='red') if it.errored else {}
        text = f'{it.name}\\nsize {it.size} sector {it.sector}\\n{reports.counts_text(it.counts)}'
        text += '\\nENXIO' * it.errored
        yield f'{node}_{at}' + attributes(shape='ellipse', label=text, **marks)
        yield f'{node} -> {node}_{at}' + attributes(arrowhead='none')
    for it in geom.consumers:
        # Where several providers have the name, the report doesn't tell which one it is.
        those = providers.get(it.provider, [])
        marks = dict(style='dotted') if len(those) > 1 else {}
        for provider in those:
            yield f'{provider} -> {node}' + attributes(dir='back', label=reports.counts_text(it.counts), **marks)


def dot_text(geoms):
    """The text for dot of a mesh: a box for each geom, and above it an ellipse for each of its providers. An arrow
    leads from a geom to each provider to which it is attached, with the counts that it wants."""
    providers = {}
    for number, geom in enumerate(geoms):
        for at, it in enumerate(geom.providers):
            providers.setdefault(it.name, []).append(f'geom{number}_{at}')
    lines = [line for number, geom in enumerate(geoms) for line in geom_lines(number, geom, providers)]
    return '\n'.join([*HEAD, *('    ' + line for line in lines), '}', ''])


def drawn(text):
    """What dot draws of its text."""
    if not shutil.which('dot'):
        raise files.Stop("dot, which draws, isn't here (it is part of graphviz); --dot prints the text for it")
    done = subprocess.run(['dot', '-Tsvg'], input=text.encode(), stdout=subprocess.PIPE)
    if done.returncode:
        raise files.Stop(f'dot ended with the status {done.returncode}')
    return done.stdout.decode()


def main(given):
    text = dot_text(trees.mesh_of(given.report, files.read_text(given.report), given.line))
    print(text if given.dot else drawn(text), end='')
    return 0
