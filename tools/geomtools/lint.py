"""lint SCRIPT: every fault of a script, with its line and column, what stands there and what was wanted."""
from geomtools import expectations, files, grammar
from geomtools.limits import MAX_SCRIPT_BYTES

WHOLE_LINE = ('lines', 'long', 'byte', 'space')
ROOM = 40


def add_words(parser):
    parser.add_argument('script', help='the file of the script, or - for standard input')


def shown(fault):
    """What a fault is about: a word in quotes, or what else stands there."""
    if fault.found is None:
        return 'the line ends'
    text = fault.found if len(fault.found) <= ROOM else fault.found[:ROOM] + ' ..'
    return text if fault.cause in WHOLE_LINE else f"'{text}'"


def messages(name, text):
    """A line for each fault of a text that is in a file of this name."""
    if len(text) > MAX_SCRIPT_BYTES:
        yield f'{name}: script too long: {len(text)} bytes, wanted at most {MAX_SCRIPT_BYTES}'
    for fault in grammar.faults(text):
        yield f'{name}:{fault.line}:{fault.column}: {fault.cause}: {shown(fault)}, wanted {fault.wanted}'


def main(given):
    text = expectations.plain(files.read_text(given.script)).encode(errors='surrogateescape')
    found = list(messages(given.script, text))
    print(*found, f'{len(found)} fault' + 's' * (len(found) != 1), sep='\n')
    return 1 if found else 0
