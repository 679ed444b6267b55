"""annotate SCRIPT REPORT: each answer beside its command, and for an EPERM who holds what."""
from geomtools import expectations, files, grammar, reports, scripts
from geomtools.holders import Handle, Holders, meet, stand_against

COMMAND_ROOM, ANSWER_ROOM = 56, 56
INDENT = ' ' * 11


def add_words(parser):
    parser.add_argument('script', help='the script')
    parser.add_argument('report', help='what the program printed for it, a report or a trace, or - for standard input')
    parser.add_argument('--whole', action='store_true', help='cut no long line')


def read(script, report):
    """The text of a script, its plan, its replies, and the lines of the report behind them."""
    text = expectations.plain(files.read_text(script))
    fault = grammar.answer(text.encode(errors='surrogateescape'))
    if fault:
        raise files.Stop(f"{script} isn't a script: {fault[1]}")
    plan, lines = scripts.Plan(text), reports.report_of(files.read_text(report)).splitlines()
    found = reports.replies_of(plan, lines)
    if not found:
        said = f"it begins with '{lines[0][:60]}'" if lines else 'it is empty'
        raise files.Stop(f"{report} isn't the report of {script}: {said}")
    replies, last = found
    if replies and replies[-1].mesh and not last:
        *before, (command, reply, mesh) = replies
        last = reports.last_mesh(mesh)
        replies = [*before, reports.Reply(command, reply, mesh[:len(mesh) - len(last)])]
    return text, plan, replies, last


# Why an answer is EPERM

def shown(handle):
    return f"{handle.actor}'s {handle.name}, {handle.provider} {reports.counts_text(handle.counts)}, line {handle.line}"


def of_lines_before(ours, holders):
    """What is open that stands against this, and what else is open there; nothing if nothing stands against it."""
    found = [(handle, stand_against(ours, theirs)) for handle, theirs in holders.live() if meet(ours, theirs)]
    twice = holders.held_twice(ours)
    if twice or any(is_against for _, is_against in found):
        yield from (f'against it: {shown(handle)}' for handle, is_against in found if is_against)
        yield from (f'against it: itself, which would hold {name} twice' for name in twice)
        yield from (f'beside it: {shown(handle)}' for handle, is_against in found if not is_against)


def of_lines_behind(ours, holders, plan, replies, command):
    """Opens of other actors behind a command that stand against it. In threads they may have come first."""
    for other, reply, _ in replies:
        is_open = other.words[0] == 'open' and reply == 'ok'
        if is_open and other.line > command.line and other.actor != command.actor:
            _, name, provider, counts = other.words
            handle = Handle(plan.actors[other.actor], name, provider, reports.opened_counts(counts), other.line)
            if stand_against(ours, holders.holds(provider, handle.counts)):
                yield f'against it, if it came first: {shown(handle)}'


def reasons(command, holders, plan, replies):
    """Who holds what, for a command that was answered EPERM."""
    word, *more = command.words
    if word not in ('open', 'append'):
        handle = holders.handles.get((plan.actors[command.actor], more[0]))
        return [f'it is {shown(handle)}'] if handle else []
    if word == 'open':
        ours = holders.holds(more[1], reports.opened_counts(more[2]))
    else:
        holders = holders.with_component(*more)
        ours = holders.holds_of_component(*more)
    told = list(of_lines_before(ours, holders)) or list(of_lines_behind(ours, holders, plan, replies, command))
    return told or ['the script tells of nobody who stands against it']


# What is printed

def cut(text, room, is_whole):
    return text if is_whole or len(text) <= room else text[:room - 3] + ' ..'


def annotated(text, plan, replies, is_whole=False):
    """The lines of a script, each with its answer, and below it what is told of it."""
    answers = {command.line: (command, reply, mesh) for command, reply, mesh in replies}
    holders = Holders(disk.name for disk in plan.disks)
    for number, line in enumerate(text.split('\n'), 1):
        if number not in answers:
            yield f'{number:5}  {cut(line, COMMAND_ROOM + ANSWER_ROOM, is_whole)}'.rstrip()
            continue
        command, reply, mesh = answers[number]
        yield f'{number:5}  {cut(line, COMMAND_ROOM, is_whole):{COMMAND_ROOM}} {cut(reply, ANSWER_ROOM, is_whole)}'
        yield from (INDENT + it for it in mesh)
        if reply == 'EPERM':
            yield from (INDENT + it for it in reasons(command, holders, plan, replies))
        if reply.startswith('ok'):
            holders.note(plan.actors[command.actor], number, command.words)


def main(given):
    text, plan, replies, last = read(given.script, given.report)
    for line in annotated(text.removesuffix('\n'), plan, replies, given.whole):
        print(line)
    print('', *last, sep='\n')
    return 0
