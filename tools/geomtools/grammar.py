"""The grammar of scripts, and what is wrong about a text that isn't one.

The faults of a line stand in the order in which docs/PROFILE.md asks for them. So the first fault of a text is the one
with which the program answers. Behind it a line is read as well as it can be, so that one mistake isn't told twice.
"""
import collections, re

from geomtools.limits import (
    MAX_ACTORS, MAX_COMPONENTS, MAX_DISKS, MAX_LINE_BYTES, MAX_MEMORY_DISK_BYTES, MAX_RUNS_BYTES, MAX_SCRIPT_BYTES,
    MAX_SCRIPT_LINES, MAX_WRITE_LINE_BYTES)
from geomtools.runs import RUN

# What stands at a column of a line is `found`, or None if the line ends there.
Fault = collections.namedtuple('Fault', 'line column cause found wanted')
# A word of a line, where it begins, and whether it has a byte that isn't printable, for which it is blamed already.
Word = collections.namedtuple('Word', 'at text is_dirty')
# What a word has to be, and a function that gives the cause against it, or None.
Form = collections.namedtuple('Form', 'wanted cause')

DECIMAL = re.compile(r'0|[1-9][0-9]{0,19}')
SHORT_LETTERS, LONG_LETTERS = 'letters, digits, _ or -', 'letters, digits, _, -, . or /'
CLASSES = ('mbr', 'ebr', 'label', 'concat', 'stripe', 'nop')
KINDS = ('concat', 'stripe')

# The words behind the first of a header line, those behind the actor and the command, and those behind `mark H KIND`.
# `..` stands for more of what is before it.
HEADER = {'ram': 'NAME SECTORSIZE SECTORS [later]', 'disk': 'NAME SECTORSIZE [later]', 'actor': 'NAME'}
COMMANDS = {
    'open': 'H PROV COUNTS', 'close': 'H', 'read': 'H OFF LEN', 'write': 'H OFF RUNS', 'delete': 'H OFF LEN',
    'flush': 'H', 'label': 'H NAME', 'relabel': 'H NAME', 'mark': 'H KIND', 'sync': '', 'settle': '', 'insert': 'DISK',
    'pull': 'DISK', 'nop': 'PROV OFF SIZE FAIL', 'concat': 'NAME PROV ..', 'stripe': 'NAME S PROV ..',
    'append': 'NAME PROV', 'destroy': 'CLASS GEOM', 'mesh': '',
}
MARKS = {'concat': ' NAME ID PLACE COUNT', 'stripe': ' NAME ID PLACE COUNT S'}


# Forms of words

def short_name(what):
    return Form(f'{what}, 1 to 16 {SHORT_LETTERS}',
                lambda word: None if re.fullmatch(r'[A-Za-z0-9_-]{1,16}', word) else 'name')


def long_name(what):
    return Form(f'{what}, 1 to 63 {LONG_LETTERS}',
                lambda word: None if re.fullmatch(r'[A-Za-z0-9_./-]{1,63}', word) else 'name')


def number(what, least=0, most=2 ** 64 - 1):
    """A number in a range."""
    def cause(word):
        if not DECIMAL.fullmatch(word) or int(word) >= 2 ** 64:
            return 'number'
        return None if least <= int(word) <= most else 'range'
    return Form(f'{what}, in decimal without a leading zero', cause)


def any_number(what):
    return number(f'{what} below 2^64')


def one_of(words, wanted):
    return Form(wanted, lambda word: None if word in words else 'word')


def sector_size(word):
    return number('').cause(word) or (None if word in ('512', '4096') else 'range')


def counts(word):
    return None if re.fullmatch(r'r\dw\de\d', word, re.ASCII) and word != 'r0w0e0' else 'counts'


def sectors(size):
    """The sectors of a memory disk whose sector size is this word."""
    most = MAX_MEMORY_DISK_BYTES // (4096 if size == '4096' else 512)
    return number(f'a number of sectors from 1 to {most}', 1, most)


FORMS = {
    'H': short_name('a handle'), 'NAME': short_name('a name'), 'DISK': short_name('the name of a disk'),
    'PROV': long_name('the name of a provider'), 'GEOM': long_name('the name of a geom'),
    'OFF': any_number('an offset in bytes'), 'LEN': any_number('a length in bytes'),
    'SIZE': any_number('a size in bytes'), 'FAIL': any_number('a number FAIL'),
    'SECTORSIZE': Form('a sector size, 512 or 4096', sector_size),
    'ID': number('an id below 2^32', 0, 2 ** 32 - 1), 'PLACE': number('a place below 65536', 0, 65535),
    'COUNT': number(f'a count of places from 1 to {MAX_COMPONENTS}', 1, MAX_COMPONENTS),
    'S': number('a stripe size from 1 to 4294967295', 1, 2 ** 32 - 1),
    'COUNTS': Form('counts as r1w0e0, each of one digit and not all zero', counts),
    'CLASS': one_of(CLASSES, 'a class: ' + ', '.join(CLASSES)),
    'KIND': one_of(KINDS, 'concat or stripe'),
    '[later]': one_of(('later',), 'later, or the end of the line'),
    'COMMAND': one_of(COMMANDS, 'a command: ' + ', '.join(COMMANDS)),
}
RUNS_WANTED = 'runs BB*N: two lower-case hexadecimal digits and a count from 1 on without a leading zero'


# What is against words. Each of these gives (place in the line, cause, found, wanted).

def against_runs(words, end):
    """What is against the runs of a `write`, which go to the end of the line."""
    if not words:
        yield end, 'words', None, RUNS_WANTED
    byte, total = None, 0
    for word in words:
        run = RUN.fullmatch(word.text)
        if run and run[1] == byte:
            yield word.at, 'runs', word.text, 'another byte than that of the run before'
        elif not run and not word.is_dirty:
            yield word.at, 'runs', word.text, RUNS_WANTED
        byte, before = run and run[1], total
        total += min(int(run[2][:9]), MAX_RUNS_BYTES + 1) if run else 0
        if before <= MAX_RUNS_BYTES < total:
            yield word.at, 'runs', word.text, f'at most {MAX_RUNS_BYTES} bytes in all'


def are_runs(texts):
    """Whether these words are runs."""
    return not list(against_runs([Word(0, text, False) for text in texts], 0))


def spelled_out(forms):
    """The names of forms, with as many in the place of `..` as a line may have."""
    return forms.replace(' ..', ' PROV?' * (MAX_COMPONENTS - 1)).split()


def form_of(name, words):
    """The form of a word of this name, among these words of its line."""
    if name == 'SECTORS':
        return sectors(words[1].text if len(words) > 1 else '512')
    return FORMS[name.rstrip('?')]


def against_words(words, forms, end):
    """What is against words that have to be of these forms, in a line that ends there."""
    left = collections.deque(words)
    for name in spelled_out(forms):
        if name == 'RUNS':
            yield from against_runs(left, end)
            return
        form = form_of(name, words)
        if not left:
            if name != '[later]' and not name.endswith('?'):
                yield end, 'words', None, form.wanted
            return
        word = left.popleft()
        cause = form.cause(word.text)
        if cause and not word.is_dirty:
            yield word.at, cause, word.text, form.wanted
    if left:
        yield left[0].at, 'words', left[0].text, 'the end of the line'


def against_command(words, end):
    """What is against the words behind an actor."""
    if not words:
        yield end, 'words', None, FORMS['COMMAND'].wanted
        return
    first = words[0]
    if first.text not in COMMANDS:
        if not first.is_dirty:
            yield first.at, 'word', first.text, FORMS['COMMAND'].wanted
        return
    forms = COMMANDS[first.text]
    if first.text == 'mark' and len(words) > 2:
        if words[2].text not in MARKS:
            yield from against_words(words[1:3], forms, end)
            return
        forms += MARKS[words[2].text]
    yield from against_words(words[1:], forms, end)


# What is against a line

def words_of(line):
    """The words of a line. Between them stand spaces, and what may have been meant for one."""
    for found in re.finditer(rb'[^ \t\r\v\f]+', line):
        clean = re.sub(rb'[^ -~]', b'', found[0])
        if clean:
            yield Word(found.start(), clean.decode(), clean != found[0])


def is_write(line):
    return line.split(b' ')[1:2] == [b'write']


def against_form(number, line):
    """What is against a line before its words are read."""
    if number > MAX_SCRIPT_LINES:
        yield 0, 'lines', f'line {number}', f'nothing behind line {MAX_SCRIPT_LINES}'
    most = MAX_WRITE_LINE_BYTES if is_write(line) else MAX_LINE_BYTES
    if len(line) > most:
        yield most, 'long', f'a line of {len(line)} bytes', f'at most {most} in this line'
    for found in re.finditer(rb'[^ -~]+', line):
        yield found.start(), 'byte', shown_bytes(found[0]), 'printable ASCII'
    for found in re.finditer(rb'^ +| +$| {2,}', line):
        is_between = 0 < found.start() and found.end() < len(line)
        yield found.start() + is_between, 'space', 'a space', 'one space between two words, and none at the ends'


def shown_bytes(data):
    """Bytes that can't be printed, by the name that many know them by."""
    names = {b'\t': 'a tab', b'\r': 'a carriage return', b'\xef\xbb\xbf': 'a byte order mark', b'\0': 'a zero byte'}
    text = ' '.join('%02x' % byte for byte in data[:8]) + (' ..' if len(data) > 8 else '')
    return names.get(data, ('the byte ' if len(data) == 1 else 'the bytes ') + text)


def column(line, at):
    """The column of a place in a line, in characters."""
    return len(line[:at].decode(errors='replace')) + 1


class Reading:
    """The reading of a text, line by line: its names so far, and its faults."""

    def __init__(self):
        self.names = {'disk': [], 'actor': []}
        self.has_commands, self.faults = False, []

    def read(self, number, line):
        if not line or line.startswith(b'#'):
            return
        words = list(words_of(line))
        found = [*against_form(number, line), *self.against_line(words, len(line))]
        self.faults += [Fault(number, column(line, at), *more) for at, *more in found]

    def against_line(self, words, end):
        """What is against a line by its first word."""
        if not words or words[0].text.startswith('#'):
            return
        first, *more = words
        if first.text in HEADER:
            if self.has_commands:
                yield first.at, 'header', first.text, 'disks and actors in front of all commands'
            yield from against_words(more, HEADER[first.text], end)
            yield from self.against_name(first, more)
        elif first.text in self.names['actor']:
            self.has_commands = True
            yield from against_command(more, end)
        else:
            actors = ', '.join(self.names['actor']) or 'none yet'
            if not first.is_dirty:
                yield first.at, 'actor', first.text, f'ram, disk, actor, or the name of an actor ({actors})'
            if first.text in COMMANDS:
                yield from against_command(words, end)
            elif more and more[0].text in COMMANDS:
                yield from against_command(more, end)

    def against_name(self, first, more):
        """What is against one more disk or actor of the name that comes next, which is noted."""
        if not more or FORMS['NAME'].cause(more[0].text):
            return
        name, is_actor = more[0].text, first.text == 'actor'
        names, most = (self.names['actor'], MAX_ACTORS) if is_actor else (self.names['disk'], MAX_DISKS)
        if name in names:
            yield more[0].at, 'twice', name, f'a name that no other {"actor" if is_actor else "disk"} has'
        elif is_actor and name in HEADER:
            yield more[0].at, 'twice', name, 'another name than a word of the header'
        else:
            if len(names) >= most:
                yield first.at, 'many', first.text, f'at most {most} of them'
            names.append(name)


def faults(text):
    """The faults of a text, which is bytes, but for its length."""
    reading = Reading()
    for number, line in enumerate(text.split(b'\n'), 1):
        reading.read(number, line)
    return reading.faults


def is_script(text):
    return len(text) <= MAX_SCRIPT_BYTES and not faults(text)


def answer(text):
    """The status and the line with which the program answers a text, or None if it is a script."""
    if len(text) > MAX_SCRIPT_BYTES:
        return 8, 'script too long'
    found = faults(text)
    return (2, f'line {found[0].line}: {found[0].cause}') if found else None
