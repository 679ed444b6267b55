"""What the tools that count share: the crates of the repository, their sources, and the items of code in them."""
import collections
import pathlib
import re

TOP = pathlib.Path(__file__).resolve().parent.parent


def crates_of(top=TOP):
    """The names of the crates that crates.txt lists, in its order."""
    lines = (top / 'crates.txt').read_text().splitlines()
    return [line.partition(':')[0].split()[0] for line in lines if line.strip() and not line.startswith('#')]


def sources_of(crate, top=TOP):
    """The source files of a crate."""
    return sorted((top / 'crates' / crate / 'src').rglob('*.rt'))


def is_of_tests(crate):
    """Whether a crate holds tests alone."""
    return crate.startswith('geo_tests')


def split_list(text):
    """The parts of a text at the commas that stand in no bracket."""
    parts, depth, start = [], 0, 0
    for at, sign in enumerate(text):
        depth += (sign in '({[') - (sign in ')}]')
        if sign == ',' and depth == 0:
            parts.append(text[start:at])
            start = at + 1
    return [part.strip() for part in [*parts, text[start:]] if part.strip()]


def names_in(tree):
    """Each path that a tree of a `use` names, as a tuple of words: without what it is called here."""
    tree = tree.strip()
    braced = re.fullmatch(r'(?:(.*)::)?\{(.*)\}', tree, re.S)
    if braced is None:
        return [tuple(re.sub(r'\s+as\s+\w+$', '', tree).split('::'))]
    front = tuple(braced[1].split('::')) if braced[1] else ()
    return [front + name for part in split_list(braced[2]) for name in names_in(part)]


Use = collections.namedtuple('Use', 'path called public')


def uses_in(text):
    """The names that the `use` lines of code bring in, with what they are called here; ghost ones are no code."""
    found = []
    for line in re.finditer(r'^ *(pub(?:\([a-z]+\))? )?use ([^;]+);', text, re.M):
        before = text[text.rfind('\n', 0, line.start()) + 1:line.start(2)]
        if 'ghost' in before:
            continue
        for path in names_in(re.sub(r'\s+', ' ', line[2])):
            called = re.search(r'\b' + re.escape(path[-1]) + r'\s+as\s+(\w+)', line[2])
            found.append(Use(path, called[1] if called else path[-1], (line[1] or '').strip() == 'pub'))
    return found


ITEM = re.compile(r'^ *pub (?:const )?(?:fn|struct|enum|trait|type|const|static|mod) (\w+)', re.M)


def items_of(crate, top=TOP):
    """The names of the public items that stand in a crate's own files."""
    return {name for file in sources_of(crate, top) for name in ITEM.findall(file.read_text())}


def handed_on(crate, top=TOP):
    """For each name that a crate hands on from another one of the repository, that crate and the name there."""
    rows = {}
    for file in sources_of(crate, top):
        for use in uses_in(file.read_text()):
            if use.public and use.path[0] != 'crate' and use.path[0].startswith('geo_') and use.path[0] != crate:
                rows[use.called] = (use.path[0], use.path[-1])
    return rows
