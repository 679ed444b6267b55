"""json REPORT: a report, a trace or a summary as JSON, one object a line."""
import json, re

from geomtools import files, reports, runs, traces

# What each step names, by its place.
NAMED = {'go': ('actor',), 'start': ('request',), 'take': ('disk', 'request'), 'deliver': ('request',),
         'up': ('request',)}


def add_words(parser):
    parser.add_argument('report', help='what the program printed: a report, a trace or a summary, or - for standard input')


def bytes_of(text):
    """Runs as numbers: how many bytes they are, and each byte with how often it stands."""
    pairs = [(int(it[1], 16), int(it[2])) for it in map(runs.RUN.fullmatch, text.split(' '))]
    return dict(size=sum(count for _, count in pairs), runs=[list(it) for it in pairs])


def counts_of(counts):
    return dict(zip(('readers', 'writers', 'exclusive'), counts))


def geom_of(geom):
    return {
        'class': geom.kind, 'name': geom.name, 'rank': geom.rank, 'withering': geom.withering,
        'providers': [dict(name=it.name, size=it.size, sector=it.sector, counts=counts_of(it.counts),
                           error='ENXIO' if it.errored else None) for it in geom.providers],
        'consumers': [dict(provider=it.provider, counts=counts_of(it.counts)) for it in geom.consumers],
    }


def mesh_of(lines, **where):
    return dict(type='mesh', **where, geoms=[geom_of(it) for it in reports.geoms_of(lines)])


def reply_of(line):
    number, answer = line.split(' ', 1)
    word, _, text = answer.partition(' ')
    return dict(type='reply', line=int(number), answer=word, **(dict(bytes=bytes_of(text)) if text else {}))


def step_of(line, seat, step):
    word, *named = step
    told = dict(type='step', line=line, seat=seat, step=word, **dict(zip(NAMED.get(word, ()), named)))
    if word == 'deliver':
        told['answer'], *more = named[1]
    if told.get('answer') == 'failed':
        told['sectors'] = more[0]
    elif told.get('answer') == 'bytes':
        told['bytes'] = bytes_of(runs.runs_text(more[0]))
    return told


def parts_of(lines):
    """The answers of a report with the mesh behind each, and whether the mesh is a view, as (line, lines, view)."""
    parts, view = [(None, [], None)], None
    for line in lines:
        found = re.fullmatch(r'view (\d+)', line)
        if found:
            parts.append((None, [], int(found[1])))
        elif reports.REPLY.fullmatch(line):
            parts.append((line, [], None))
        else:
            parts[-1][1].append(line)
    return parts


def report_objects(name, text):
    """The objects of a report."""
    parts = parts_of(text.splitlines())
    if len(parts) == 1 and not parts[0][1] or any(reports.geoms_of(it) is None for _, it, _ in parts):
        raise files.Stop(f"{name} isn't a report, a trace or a summary", 2)
    views = [it for it in parts if it[2] is not None]
    plain = [it for it in parts if it[2] is None]
    for line, lines, _ in plain[:-1]:
        yield from answered(line, lines)
    line, lines, _ = plain[-1]
    last = reports.last_mesh(lines) if lines else []
    yield from answered(line, lines[:len(lines) - len(last)])
    yield mesh_of(last, line=None)
    for _, lines, steps in views:
        yield mesh_of(lines, line=None, view=steps)


def answered(line, lines):
    """The objects of an answer, and of the mesh behind it."""
    if line is not None:
        yield reply_of(line)
    if lines:
        yield mesh_of(lines, line=int(line.split(' ')[0]) if line else None)


def objects(name, text):
    """The objects of what is in a file of this name."""
    if traces.is_trace(text):
        trace = traces.read_named(name, text)
        yield dict(type='script', text=trace.script)
        yield from (dict(type='image', sectors=it.sectors) for it in trace.plan.disks if it.is_image)
        yield from (step_of(line, *it) for line, it in enumerate(trace.steps, trace.line))
        text = trace.report
    if re.match(r'commands \d+\n', text):
        for line in text.splitlines():
            word, count = line.split(' ')
            yield dict(type='count', word=word, count=int(count))
    else:
        yield from report_objects(name, text)


def main(given):
    for it in objects(given.report, files.read_text(given.report)):
        print(json.dumps(it))
    return 0
