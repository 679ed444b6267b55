"""Smaller scripts that still fail: fewer lines, fewer words, smaller numbers. Only scripts are tried, so a line stays
as long as another one needs it."""
import itertools, re

from geomtools import grammar, runs

COUNTS = re.compile(r'r\dw\de\d')


class Tries:
    """Whether a text is a script that fails, and how often that was tried."""

    def __init__(self, fails):
        self.fails, self.count, self.known = fails, 0, {}

    def __call__(self, lines):
        text = text_of(lines)
        key = hash(text)
        if key not in self.known:
            is_script = grammar.is_script(text.encode())
            self.count += is_script
            self.known[key] = is_script and self.fails(text)
        return self.known[key]


def text_of(lines):
    return ''.join(line + '\n' for line in lines)


def fewer_lines(lines, fails):
    """The lines without those that aren't needed: large parts are left out first, and single lines at last."""
    size = len(lines)
    while size:
        at = 0
        while at < len(lines):
            less = lines[:at] + lines[at + size:]
            if fails(less):
                lines = less
            else:
                at += size
        size = min(size, len(lines)) // 2 if size > 1 else 0
    return lines


def smaller_numbers(number):
    """Numbers to be tried in its place, the smallest first."""
    return sorted({it for it in (0, 1, 512, 4096, number // 2, number // 1024 * 512, number - 512) if 0 <= it < number})


def smaller_words(word):
    """Words to be tried in the place of one that isn't a run."""
    if word.isdecimal():
        yield from map(str, smaller_numbers(int(word)))
    elif COUNTS.fullmatch(word):
        for at in (1, 3, 5):
            yield from (word[:at] + digit + word[at + 1:] for digit in '01' if digit < word[at])


def smaller_runs(words):
    """Runs to be tried in the place of these: one run of zeros, or of fewer bytes, or some of them."""
    size = sum(int(word.partition('*')[2]) for word in words)
    yield from ([f'00*{it}'] for it in smaller_numbers(size) if it)
    if words != [f'00*{size}']:
        yield [f'00*{size}']
    if len(words) > 1:
        yield from (runs.runs_text(runs.bytes_of_runs(words[:at] + words[at + 1:])).split() for at in range(len(words)))


def smaller_lines(line):
    """Lines to be tried in the place of this one, each with one thing less."""
    words = line.split(' ')
    first_run = next((at for at, word in enumerate(words) if runs.RUN.fullmatch(word)), len(words))
    for at in range(2, first_run):
        yield words[:at] + words[at + 1:]
    for at in range(1, first_run):
        yield from (words[:at] + [word] + words[at + 1:] for word in smaller_words(words[at]))
    if first_run < len(words):
        yield from (words[:first_run] + less for less in smaller_runs(words[first_run:]))


def with_smaller_lines(lines, fails):
    """The lines, each as small as it can be while the others stay."""
    for at in range(len(lines)):
        is_smaller = True
        while is_smaller:
            tried = (lines[:at] + [' '.join(words)] + lines[at + 1:] for words in smaller_lines(lines[at]))
            less = next(filter(fails, tried), None)
            is_smaller = less is not None
            lines = less or lines
    return lines


def fewer_actors(lines, fails):
    """The lines with the commands of an actor given to another one, if they still fail."""
    actors = [line.split(' ')[1] for line in lines if line.startswith('actor ')]
    for left, taker in itertools.permutations(actors, 2):
        less = [taker + line.removeprefix(left) if line.startswith(left + ' ') else line for line in lines]
        less.remove(f'actor {left}')
        if fails(less):
            return fewer_actors(less, fails)
    return lines


def smallest(text, fails):
    """The smallest script found from one that fails: no line can go from it, and none be smaller by one thing."""
    lines, before = [line for line in text.split('\n') if line and not line.startswith('#')], None
    while lines != before:
        before = lines
        lines = with_smaller_lines(fewer_actors(fewer_lines(lines, fails), fails), fails)
    return text_of(lines)
