"""expand SCRIPT: a plain script of one with sizes as 4k, names for values, repeated parts and other files.

    set SIZE 64k                  $SIZE stands for 64k from here on
    include disks.part            the lines of another file, named from the folder of this one
    repeat 4 as K                 the lines to `end`, four times, with $K as 0, 1, 2 and 3
    a read h $(K * 4096) 4k       # a comment behind a command; sizes with k, m or g, and 0x200
    end

In `$(..)` stand numbers, names, + - * / % and brackets. What begins with `#` stays as it is.
"""
import ast, operator, os, re

from geomtools import expectations, files, grammar, lint

NUMBERS = ('OFF', 'LEN', 'SIZE', 'FAIL', 'ID', 'PLACE', 'COUNT', 'S', 'SECTORS', 'SECTORSIZE')
SIZES = {'': 1, 'k': 1 << 10, 'm': 1 << 20, 'g': 1 << 30}
SIZED = re.compile(r'(\d+)([kmg]?)|0x([0-9a-f]+)', re.I)
OPERATORS = {ast.Add: operator.add, ast.Sub: operator.sub, ast.Mult: operator.mul, ast.Div: operator.floordiv,
             ast.FloorDiv: operator.floordiv, ast.Mod: operator.mod}
MOST_LINES = 1_000_000


def add_words(parser):
    parser.add_argument('script', help='the script, or - for standard input')
    parser.add_argument('--map', metavar='FILE', help='write where each line comes from, as `LINE FILE:LINE`')


class Place:
    """A line of a file."""

    def __init__(self, file, line):
        self.file, self.line = file, line

    def __str__(self):
        return f'{self.file}:{self.line}'

    def stop(self, message):
        return files.Stop(f'{self}: {message}', 2)


def number_of(text):
    """The number that a size says, or None."""
    found = SIZED.fullmatch(text)
    if found is None:
        return None
    return int(found[3], 16) if found[3] else int(found[1]) * SIZES[found[2].lower()]


def computed(place, text, values):
    """The number that an expression is."""
    def value(node):
        if isinstance(node, ast.Constant) and isinstance(node.value, int):
            return node.value
        if isinstance(node, ast.Name):
            found = number_of(values.get(node.id, ''))
            if found is None:
                raise place.stop(f"'{node.id}' isn't a name of a number")
            return found
        if isinstance(node, ast.BinOp) and type(node.op) in OPERATORS:
            return OPERATORS[type(node.op)](value(node.left), value(node.right))
        raise place.stop(f"'{text}' isn't numbers, names and + - * / %")
    try:
        plain = re.sub(r'\b\d+[kmg]\b', lambda it: str(number_of(it[0])), text, flags=re.I)
        return value(ast.parse(plain.strip(), mode='eval').body)
    except (SyntaxError, ZeroDivisionError, ValueError) as error:
        raise place.stop(f"'{text}': {error}") from error


def with_values(place, line, values):
    """A line with what its names stand for."""
    def value(found):
        if found[1] is not None:
            return str(computed(place, found[1], values))
        name = found[2] or found[3]
        if name not in values:
            raise place.stop(f"'{name}' isn't set")
        return values[name]
    return re.sub(r'\$\(([^()]*(?:\([^()]*\)[^()]*)*)\)|\$\{(\w+)\}|\$(\w+)', value, line)


def forms_of(words):
    """The names of the forms that the words of a line have, as many as are known."""
    if words[0] in grammar.HEADER:
        return ['', *grammar.spelled_out(grammar.HEADER[words[0]])]
    if len(words) > 1 and words[1] in grammar.COMMANDS:
        forms = grammar.COMMANDS[words[1]]
        if words[1] == 'mark' and len(words) > 3:
            forms += grammar.MARKS.get(words[3], '')
        return ['', '', *grammar.spelled_out(forms)]
    return []


def plain_words(line):
    """A line with its sizes as numbers."""
    words = line.split()
    forms = forms_of(words) if words else []
    for at, word in enumerate(words):
        form = forms[at] if at < len(forms) else 'RUNS' if 'RUNS' in forms else ''
        number = number_of(word) if form in NUMBERS else None
        run = re.fullmatch(r'([0-9a-f]{2})\*(\w+)', word) if form == 'RUNS' else None
        times = number_of(run[2]) if run else None
        words[at] = str(number) if number is not None else f'{run[1]}*{times}' if times is not None else word
    return ' '.join(words)


def plain_line(line):
    """A line as the program takes it; what it expects stays behind it."""
    if line.startswith(('#', '=')):
        return line.rstrip()
    line = re.sub(r'(^|\s)#.*', '', line)
    command, sign, wanted = line.partition(' = ')
    return plain_words(command) + (f'  = {wanted.strip()}' if sign else '')


class Expansion:
    """The plain lines of a script, each with the place that it comes from."""

    def __init__(self):
        self.lines, self.values, self.open_files = [], {}, []

    def add_file(self, name, by=None):
        if name in self.open_files:
            raise by.stop(f'{name} includes itself')
        self.open_files.append(name)
        text = files.read_text(name)
        self.add([(Place(name, number), line) for number, line in enumerate(text.splitlines(), 1)])
        self.open_files.pop()

    def add(self, rows):
        """Adds lines of a source, each with its place."""
        at = 0
        while at < len(rows):
            place, line = rows[at]
            at += 1
            words = [] if line.lstrip().startswith('#') else re.sub(r'(^|\s)#.*', '', line).split()
            if words[:1] == ['repeat']:
                end = end_of(rows, at, place)
                self.repeat(place, with_values(place, ' '.join(words), self.values).split(), rows[at:end])
                at = end + 1
            else:
                self.add_line(place, line, words)

    def add_line(self, place, line, words):
        if words[:1] == ['set']:
            if len(words) < 3 or not re.fullmatch(r'[A-Za-z_]\w*', words[1]):
                raise place.stop('wanted set NAME VALUE')
            self.values[words[1]] = with_values(place, ' '.join(words[2:]), self.values)
        elif words[:1] == ['include']:
            if len(words) != 2:
                raise place.stop('wanted include FILE')
            self.add_file(os.path.join(os.path.dirname(place.file), words[1]), place)
        elif words[:1] == ['end']:
            raise place.stop('no part is open that `end` could end')
        elif len(self.lines) == MOST_LINES:
            raise place.stop(f'it makes more than {MOST_LINES} lines')
        else:
            text = line if line.startswith('#') else with_values(place, line, self.values)
            self.lines.append((place, plain_line(text)))

    def repeat(self, place, words, rows):
        """Adds lines so many times."""
        times = number_of(words[1]) if len(words) > 1 else None
        if times is None or len(words) not in (2, 4) or words[2:3] not in ([], ['as']):
            raise place.stop('wanted repeat N, or repeat N as NAME')
        for count in range(times):
            if len(words) == 4:
                self.values[words[3]] = str(count)
            self.add(rows)


def end_of(rows, at, place):
    """Where the part ends whose first line is at this place of the rows."""
    depth = 1
    for end in range(at, len(rows)):
        word = rows[end][1].split()[:1]
        depth += (word == ['repeat']) - (word == ['end'])
        if depth == 0:
            return end
    raise place.stop('no `end` ends this part')


def main(given):
    expansion = Expansion()
    expansion.add_file(given.script)
    text = ''.join(line + '\n' for _, line in expansion.lines)
    for number, (_, line) in enumerate(expansion.lines, 1):
        print(line)
    if given.map:
        files.write_text(given.map, ''.join(f'{number} {place}\n'
                                            for number, (place, _) in enumerate(expansion.lines, 1)))
    found = grammar.faults(expectations.plain(text).encode(errors='surrogateescape'))
    if found:
        raise files.Stop('\n'.join(f'{expansion.lines[it.line - 1][0]}: {it.cause}: {lint.shown(it)}, wanted {it.wanted}'
                                   for it in found))
    return 0
