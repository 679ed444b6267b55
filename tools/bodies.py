"""What a body of code calls, read from the sources alone: the items in them with their types, and each body as a tree
of expressions, in which each call is followed to the function that it means.

A method is found by the type of what it is called on, so the types of parameters, fields, answers and patterns are
followed too, and what the methods of std answer as far as it is needed. Contracts, attributes and ghost items are no
code. What is read of a body, and what isn't on the way, is said by a `Choice`.
"""
import collections
import re

from sources import crates_of, is_of_tests, sources_of, uses_in

# What a reader of bodies is told. `taken`: for an enum, its variants that come up; of `match`, `if let` and `let` only
# arms for these are read. `made`: those enums for which an expression is left out too that makes another variant.
# `stands_for`: the type that is meant where a trait is all that is known of one.
Choice = collections.namedtuple('Choice', 'taken made stands_for')
TOKEN = re.compile(r"""b?"(?:\\.|[^"\\])*"|b?'(?:\\.|[^'\\])'|'\w+|\w+|::|->|=>|\.\.=?|&&|\|\||"""
                   r"""[-+*/%&|^]=|<<|[=!<>]=|\S""")
Token = collections.namedtuple('Token', 'text line')
Type = collections.namedtuple('Type', 'head args')      # the head is an item, or the name of a type of std
NONE, UNIT = Type('?', ()), Type('()', ())
Item = collections.namedtuple('Item', 'crate module name')
Open = collections.namedtuple('Open', 'name trait')


def closing(text, at, pair='{}'):
    """The place behind the bracket that closes the one at a place."""
    depth = 0
    while True:
        depth += (text[at] == pair[0]) - (text[at] == pair[1])
        at += 1
        if depth == 0:
            return at


def blank(found):
    return re.sub(r'[^\n]', ' ', found if isinstance(found, str) else found[0])


def code_of(text):
    """A source with blanks in the place of its comments, attributes, clauses and ghost items."""
    text = re.sub(r'//[^\n]*', blank, text)
    parts, done = [], 0
    for found in re.finditer(r'^ *(?:#!?(?=\[)|(?:requires|ensures)\b|(?:pub )?ghost (use )?)', text, re.M):
        if found.start() < done:
            continue
        if found[0].strip(' !') == '#':
            end = closing(text, found.end(), '[]')
        elif found[1]:
            end = text.index(';', found.end()) + 1
        else:
            end = closing(text, text.index('{', found.end()))
            end += 'ghost' in found[0] and text[end] in ';,'
        parts += [text[done:found.start()], blank(text[found.start():end])]
        done = end
    return ''.join(parts) + text[done:]


class Source:
    """A source file: what it imports and the items in it."""
    def __init__(self, crate, file, top):
        self.crate, self.file = crate, file.relative_to(top)
        parts = list(file.relative_to(top / 'crates' / crate / 'src').with_suffix('').parts)
        self.module = tuple(part for part in parts if part not in ('lib', 'main', 'mod'))
        text = file.read_text()
        self.uses = {use.called: use.path for use in uses_in(text)}
        code = code_of(text)
        self.tokens, line, at = [], 1, 0
        for found in TOKEN.finditer(code):
            line += code.count('\n', at, found.start())
            at = found.start()
            self.tokens.append(Token(found[0], line))
        self.lines = {token.line for token in self.tokens}


class Function:
    """A function: what it is given and answers, and the tokens of its body, None where a trait has none."""

    def __init__(self, source, name, line, owner, params, answer, bounds):
        self.source, self.name, self.line, self.owner = source, name, line, owner
        self.params, self.answer, self.bounds = params, answer, bounds
        self.body, self.length, self.of_std = None, 0, False

    def place(self):
        return f'{self.source.file}:{self.line}'

    def title(self):
        return f'{self.owner.head.name}::{self.name}' if self.owner else self.name


class World:
    """The code of all crates but those of tests."""
    def __init__(self, top, choice):
        self.choice = choice
        self.crates = [crate for crate in crates_of(top) if not is_of_tests(crate)]
        self.sources, self.items, self.methods = {}, {}, {}
        self.fields, self.variants, self.traits, self.consts = {}, {}, set(), {}
        for crate in self.crates:
            for file in sources_of(crate, top):
                source = Source(crate, file, top)
                self.sources[crate, source.module] = source
        for pass_ in (Names, Items):
            for source in self.sources.values():
                pass_(self, source).items()

    def function(self, crate, name):
        """The function of a crate that has this name."""
        return next(it for (item, method), it in self.methods.items()
                    if method is None and (item.crate, item.name) == (crate, name))

    def has(self, name):
        """Whether a method has this name."""
        return any(method == name for _, method in self.methods)

    def stood_for(self, trait, name):
        """The method of the type that is meant where only a trait is known."""
        stand = self.choice.stands_for.get(trait)
        return next((it for (item, method), it in self.methods.items()
                     if method == name and isinstance(item, Item) and item.name == stand), None)

    def meant(self, function):
        """The function that is meant by one, which may be a trait's."""
        if function.body is None and function.owner and function.owner.head in self.traits:
            return self.stood_for(function.owner.head.name, function.name) or function
        return function

    def find(self, crate, module, path):
        """The item that a path names in a module, and what follows of the path."""
        if not path:
            return None, ()
        head, rest = path[0], path[1:]
        if head == 'crate':
            return self.find(crate, (), rest)
        if head == 'super':
            return self.find(crate, module[:-1], rest)
        if head == 'self':
            return self.find(crate, module, rest)
        if Item(crate, module, head) in self.items:
            return Item(crate, module, head), rest
        source = self.sources.get((crate, module))
        if source and head in source.uses and source.uses[head] != path:
            way = source.uses[head]
            if way[0] in self.crates and way[0] != crate:
                return self.find(way[0], (), way[1:] + rest)
            return self.find(crate, () if way[0] == 'crate' else module, (way[1:] if way[0] == 'crate' else way) + rest)
        if (crate, module + (head,)) in self.sources:
            return self.find(crate, module + (head,), rest)
        if head in self.crates:
            return self.find(head, (), rest)
        return None, path


class Reader:
    """What reads tokens."""
    def __init__(self, world, source, tokens=None):
        self.world, self.source, self.tokens, self.at = world, source, source.tokens if tokens is None else tokens, 0

    def sees(self, *texts):
        return self.at < len(self.tokens) and self.tokens[self.at].text in texts

    def ahead(self, by=0):
        return self.tokens[self.at + by].text if self.at + by < len(self.tokens) else ''

    def take(self, *texts):
        if self.sees(*texts):
            self.at += 1
            return self.tokens[self.at - 1].text
        return None

    def need(self, *texts):
        if not self.sees(*texts):
            line = self.tokens[min(self.at, len(self.tokens) - 1)].line
            raise SyntaxError(f'{self.source.file}:{line}: {self.ahead()!r}, not one of {texts}')
        self.at += 1
        return self.tokens[self.at - 1].text

    def next(self):
        self.at += 1
        return self.tokens[self.at - 1].text

    def group(self):
        """The tokens in the bracket that opens here."""
        first, depth = self.at, 0
        while True:
            depth += (self.ahead() in '({[') - (self.ahead() in ')}]') if self.ahead() else 0
            self.at += 1
            if depth == 0:
                return self.tokens[first + 1:self.at - 1]

    def group_ahead(self):
        at, group = self.at, self.group()
        self.at = at
        return group

    def generics(self):
        """The parameters in angle brackets, with the trait that bounds each."""
        bounds = {}
        if not self.take('<'):
            return bounds
        depth, name, after = 1, None, False
        while depth:
            text = self.next()
            depth += (text == '<') - (text == '>')
            if depth == 1 and text == ':':
                after = True
            elif depth == 1 and text == ',':
                name, after = None, False
            elif re.match(r'[A-Za-z]', text) and text != 'const':
                if name is None:
                    name = text
                    bounds[name] = None
                elif after and bounds[name] is None:
                    bounds[name] = text
        return bounds

    def type(self, own=None, bounds=()):
        while self.take('&', 'mut', 'dyn', 'impl', '&&') or self.ahead().startswith("'"):
            if self.ahead().startswith("'"):
                self.at += 1
        if self.sees('('):
            inner = Reader(self.world, self.source, self.group())
            parts = []
            while inner.ahead():
                parts.append(inner.type(own, bounds))
                inner.take(',')
            return Type('()', tuple(parts))
        if self.sees('['):
            return Type('Vec', (Reader(self.world, self.source, self.group()).type(own, bounds),))
        if self.take('!'):
            return NONE
        path, args = [], ()
        while True:
            if self.sees('<'):
                args = self.arguments(own, bounds)
            else:
                path.append(self.next())
            if path[-1] in ('Fn', 'FnMut', 'FnOnce') and self.sees('('):
                self.group()
                if self.take('->'):
                    return Type('Fn', (self.type(own, bounds),))
                return Type('Fn', (NONE,))
            if self.take('::') or self.sees('<'):
                continue
            break
        if path == ['Self'] and own:
            return own
        if path[0] in bounds:
            return Type(Open(path[0], bounds[path[0]]), ())
        if path[-1] == 'Box':
            return args[0]
        item, rest = self.world.find(self.source.crate, self.source.module, tuple(path))
        if item and not rest:
            return Type(item, args)
        return Type('Vec' if path[-1] in ('Vec', 'Slice') else path[-1], args)

    def arguments(self, own, bounds):
        self.need('<')
        args = []
        while not self.take('>'):
            if self.ahead().startswith("'"):
                self.at += 1
            elif self.ahead(1) == '=':
                self.at += 2
                self.type(own, bounds)
            else:
                args.append(self.type(own, bounds))
            self.take(',')
        return tuple(args)


class Names(Reader):
    """Which items stand in a source."""
    def items(self):
        while self.at < len(self.tokens):
            text = self.next()
            if text in ('struct', 'enum', 'trait', 'fn', 'const', 'static', 'type'):
                if text == 'const' and self.sees('fn'):
                    continue
                item = Item(self.source.crate, self.source.module, self.ahead())
                self.world.items[item] = text
                if text == 'trait':
                    self.world.traits.add(item)
            elif text == 'impl':
                while not self.sees('{'):
                    self.at += 1
            if text in ('impl', 'trait', 'fn', 'enum', 'struct'):
                while not self.sees('{', ';'):
                    self.at += 1
                if self.sees('{'):
                    self.group()


class Items(Reader):
    """The items of a source, with their types."""
    def items(self, owner=None, trait=None, bounds=None):
        bounds = bounds or {}
        while self.at < len(self.tokens):
            text = self.next()
            if text == 'impl':
                inner = dict(self.generics())
                first = self.type(None, inner)
                of = None
                if self.take('for'):
                    of, first = first, self.type(None, inner)
                while not self.sees('{'):
                    self.at += 1
                Items(self.world, self.source, self.group()).items(first, of, inner)
            elif text == 'trait':
                name = self.next()
                item = Item(self.source.crate, self.source.module, name)
                while not self.sees('{'):
                    self.at += 1
                Items(self.world, self.source, self.group()).items(Type(item, ()), None, {'Self': name})
            elif text == 'struct':
                self.struct(self.next())
            elif text == 'enum':
                self.enum(self.next())
            elif text == 'fn':
                self.function(owner, trait, bounds)
            elif text in ('const', 'static') and not self.sees('fn'):
                name = self.next()
                if self.take(':'):
                    self.world.consts[Item(self.source.crate, self.source.module, name)] = self.type(owner)
                while not self.take(';'):
                    self.group() if self.sees('{', '(', '[') else self.next()
            elif text in ('use', 'mod', 'type'):
                while not self.take(';'):
                    self.next()

    def fields_here(self, bounds):
        """The types of the fields that are listed here, named or numbered."""
        fields = {}
        if not self.sees('{', '('):
            return fields
        inner, bounds = Reader(self.world, self.source, self.group()), dict.fromkeys(bounds)
        while inner.ahead():
            if inner.take('pub') and inner.sees('('):
                inner.group()
            name = str(len(fields))
            if inner.ahead(1) == ':':
                name = inner.next()
                inner.next()
            fields[name] = inner.type(None, bounds)
            inner.take(',')
        return fields

    def struct(self, name):
        bounds = self.generics()
        item = Item(self.source.crate, self.source.module, name)
        self.world.fields[item] = list(bounds), self.fields_here(bounds)

    def enum(self, name):
        bounds = self.generics()
        item = Item(self.source.crate, self.source.module, name)
        inner, rows = Items(self.world, self.source, self.group()), {}
        while inner.ahead():
            variant = inner.next()
            rows[variant] = inner.fields_here(bounds)
            if inner.take('='):
                inner.next()
            inner.take(',')
        self.world.variants[item] = (list(bounds), rows)

    def function(self, owner, trait, outer):
        line, name = self.tokens[self.at].line, self.next()
        bounds = outer | self.generics()
        own = Type(Open('Self', outer['Self']), ()) if 'Self' in outer else owner
        inner, params = Reader(self.world, self.source, self.group()), []
        while inner.ahead():
            start = inner.at
            while inner.take('&', 'mut') or inner.ahead().startswith("'"):
                if inner.ahead().startswith("'"):
                    inner.at += 1
            if inner.take('self'):
                params.append(('self', own))
            else:
                inner.at = start
                pattern = []
                while not inner.sees(':'):
                    pattern.append(inner.next())
                inner.need(':')
                params.append((pattern[-1], inner.type(owner, bounds)))
            inner.take(',')
        answer = self.type(owner, bounds) if self.take('->') else UNIT
        while not self.sees('{', ';'):
            self.next()
        function = Function(self.source, name, line, owner, params, answer, bounds)
        if self.sees('{'):
            first = self.tokens[self.at].line
            function.body = self.group()
            last = self.tokens[self.at - 1].line
            function.length = sum(first < at < last for at in self.source.lines)
        if owner is None:
            self.world.methods[Item(self.source.crate, self.source.module, name), None] = function
            return
        function.of_std = trait is not None and not isinstance(trait.head, Item)
        if trait is None or (owner.head, name) not in self.world.methods:
            self.world.methods[owner.head, name] = function


BOOL, NUMBER = Type('bool', ()), Type('u64', ())
COMPARES = {'>', '<', '==', '!=', '<=', '>=', '&&', '||'}
BINARY = COMPARES | set('+-*/%&|^=') | {'<<', '+=', '-=', '*=', '/=', '%=', '&=', '|=', '^=', '..', '..='}


def inner_of(kind):
    return kind.args[0] if kind.args else NONE


class Body(Reader):
    """The body of a function: what it calls on the way, in the order of the text (`calls`); the variants that it makes
    (`makes`); and the methods of which it isn't known whose they are (`unknown`)."""

    def __init__(self, world, function):
        super().__init__(world, function.source, function.body)
        self.function, self.scopes, self.calls, self.makes = function, [dict(function.params)], [], set()
        self.given, self.unknown = NONE, []

    def read(self):
        self.statements()
        return self

    def muted(self, read, *given):
        """Reads what isn't on the way."""
        calls, makes, unknown = list(self.calls), set(self.makes), list(self.unknown)
        done = read(*given)
        self.calls, self.makes, self.unknown = calls, makes, unknown
        return done

    def left(self, read, *given):
        """Reads a block; if it ends in a return, what it calls isn't on the way."""
        calls, unknown = list(self.calls), list(self.unknown)
        kind, leaves = read(*given)
        if leaves:
            self.calls, self.unknown = calls, unknown
        return kind

    def block(self):
        """A block: its type, and whether it ends in a return."""
        self.need('{')
        self.scopes.append({})
        done = self.statements()
        self.scopes.pop()
        self.need('}')
        return done

    def statements(self):
        kind, leaves = UNIT, False
        while self.ahead() and not self.sees('}'):
            if self.take(';'):
                kind = UNIT
                continue
            leaves = self.sees('return')
            if self.sees('unreachable') and self.ahead(1) == '!':
                leaves = True
            if self.take('let'):
                self.let()
                kind = UNIT
            else:
                kind = self.expression()
        return kind, leaves

    def let(self):
        """A `let`; what it does else leaves."""
        _, _, bind = self.pattern()
        given = self.type(self.function.owner, self.function.bounds) if self.take(':') else None
        kind = self.expression() if self.take('=') else NONE
        bind(kind if kind != NONE else given or NONE)
        if self.take('else'):
            self.muted(self.block)

    # Patterns.

    def pattern(self):
        """A pattern: whether it is taken, the variants that it takes wholly (None: all), and what binds its names."""
        self.take('|')
        rows = [self.one_pattern()]
        while self.take('|'):
            rows.append(self.one_pattern())
        whole = set()
        for _, taken_whole, _ in rows:
            whole = None if whole is None or taken_whole is None else whole | taken_whole

        def bind(kind):
            for _, _, one in rows:
                one(kind)
        return any(row[0] for row in rows), whole, bind

    def one_pattern(self):
        while self.take('&', 'mut', 'ref', '&&'):
            pass
        if self.take('_'):
            return True, None, lambda kind: None
        if self.sees('(', '['):
            tuple_like = self.sees('(')
            rows = self.patterns_in(self.group())

            def bind_parts(kind):
                for at, row in enumerate(rows):
                    part = (kind.args[at] if at < len(kind.args) else NONE) if tuple_like and kind.head == '()' else (
                        kind if tuple_like and len(rows) == 1 else inner_of(kind) if kind.head == 'Vec' else NONE)
                    row[2](part)
            return all(row[0] for row in rows), None if all(row[1] is None for row in rows) else set(), bind_parts
        if re.match(r"[0-9'\"]|b['\"]|-|true\b|false\b", self.ahead()):
            self.next()
            while self.take('..', '..='):
                if re.match(r"[0-9'\"]|b['\"]", self.ahead()):
                    self.next()
            return True, set(), lambda kind: None
        if self.take('..', '..='):
            return True, None, lambda kind: None
        path = [self.next()]
        while self.take('::'):
            path.append(self.next())
        if self.sees('..', '..='):
            self.next()
            if re.match(r"[0-9A-Z]", self.ahead()):
                self.next()
            return True, set(), lambda kind: None
        fields = {}
        if self.sees('('):
            fields = {str(at): row for at, row in enumerate(self.patterns_in(self.group()))}
        elif self.sees('{'):
            fields = self.named_in(self.group())
        elif len(path) == 1 and not path[0][0].isupper():
            name = path[0]
            if self.take('@'):
                taken, whole, inner = self.one_pattern()
            else:
                taken, whole, inner = True, None, lambda kind: None
            scope = self.scopes[-1]

            def bind_name(kind):
                scope[name] = kind
                inner(kind)
            return taken, whole, bind_name
        enum, variant = self.variant(path)
        taken = all(row[0] for row in fields.values())
        if enum in self.world.choice.taken and variant not in self.world.choice.taken[enum]:
            taken = False
        whole = {variant} if all(row[1] is None for row in fields.values()) else set()

        def bind_fields(kind):
            types = self.payload(path, kind)
            for name, row in fields.items():
                row[2](types.get(name, NONE))
        return taken, whole, bind_fields

    def patterns_in(self, tokens):
        tokens, self.tokens, at, self.at = self.tokens, tokens, self.at, 0
        rows = []
        while self.ahead():
            rows.append(self.pattern())
            self.take(',')
        self.tokens, self.at = tokens, at
        return rows

    def named_in(self, tokens):
        tokens, self.tokens, at, self.at = self.tokens, tokens, self.at, 0
        rows = {}
        while self.ahead():
            if self.take('..'):
                continue
            start = self.at
            while self.take('mut', 'ref', '&'):
                pass
            name = self.next()
            if self.take(':'):
                rows[name] = self.pattern()
            else:
                self.at = start
                rows[name] = self.pattern()
            self.take(',')
        self.tokens, self.at = tokens, at
        return rows

    def variant(self, path):
        """The names of an enum and of its variant, of which the first may be told by the second alone."""
        if path[-1] in ('Ok', 'Err'):
            return 'Result', path[-1]
        if path[-1] in ('Some', 'None'):
            return 'Option', path[-1]
        if len(path) > 1:
            return path[-2], path[-1]
        return '', path[-1]

    def payload(self, path, kind):
        """The types of the fields of what a pattern names."""
        if path[-1] in ('Some', 'Ok'):
            return {'0': inner_of(kind)}
        if path[-1] == 'Err':
            return {'0': kind.args[1] if len(kind.args) > 1 else NONE}
        item = kind.head
        if not isinstance(item, Item):
            item, _ = self.world.find(self.source.crate, self.source.module, tuple(path[:-1] or path))
        if item in self.world.variants:
            names, rows = self.world.variants[item]
            return {name: self.filled(field, names, kind.args) for name, field in rows.get(path[-1], {}).items()}
        if item in self.world.fields:
            names, rows = self.world.fields[item]
            return {name: self.filled(field, names, kind.args) for name, field in rows.items()}
        return {}

    def filled(self, kind, names, args):
        """A type whose open names are given."""
        if isinstance(kind.head, Open):
            if kind.head.name in names and names.index(kind.head.name) < len(args):
                return args[names.index(kind.head.name)]
            return kind
        return Type(kind.head, tuple(self.filled(part, names, args) for part in kind.args))

    # Expressions.

    def expression(self, struct=True):
        kind = self.operand(struct)
        while self.sees(*BINARY) or self.sees('as'):
            if self.take('as'):
                kind = self.type(self.function.owner, self.function.bounds)
                continue
            sign = self.next()
            if sign == '>' and self.sees('>'):
                self.next()
            if sign in ('..', '..='):
                if self.ahead() and not self.sees(')', ']', '}', ',', ';', '{', '=>'):
                    self.operand(struct)
                kind = Type('Vec', (kind,))
                continue
            self.operand(struct)
            if sign in COMPARES:
                kind = BOOL
        return kind

    def operand(self, struct):
        while self.take('&', '&&', '*', '-', '!', 'mut'):
            pass
        kind = self.head(struct)
        while True:
            if self.take('?'):
                kind = inner_of(kind)
            elif self.sees('['):
                ranged = any(token.text in ('..', '..=') for token in self.group_ahead())
                self.listed(self.group())
                kind = kind if ranged else inner_of(kind)
            elif self.sees('('):
                self.listed(self.group())
                kind = inner_of(kind) if kind.head == 'Fn' else NONE
            elif self.take('.'):
                name = self.next()
                if self.take('::'):
                    self.arguments(self.function.owner, self.function.bounds)
                kind = self.method(kind, name) if self.sees('(') else self.field(kind, name)
            else:
                return kind

    def listed(self, tokens, given=NONE):
        """The types of expressions that commas divide."""
        tokens, self.tokens, at, self.at = self.tokens, tokens, self.at, 0
        kinds, before = [], self.given
        self.given = given
        while self.ahead():
            kinds.append(self.expression())
            self.take(',', ';')
        self.tokens, self.at, self.given = tokens, at, before
        return kinds

    def head(self, struct):
        text = self.ahead()
        if text == '(':
            kinds = self.listed(self.group())
            return kinds[0] if len(kinds) == 1 else Type('()', tuple(kinds))
        if text == '[':
            kinds = self.listed(self.group())
            return Type('Vec', tuple(kinds[:1]) or (NONE,))
        if text == '{':
            return self.left(self.block)
        if self.take('if'):
            return self.condition()
        if self.take('match'):
            return self.match()
        if self.take('loop'):
            self.block()
            return NONE
        if self.take('while'):
            self.scopes.append({})
            self.head_of_condition()
            self.block()
            self.scopes.pop()
            return UNIT
        if self.take('for'):
            self.scopes.append({})
            _, _, bind = self.pattern()
            self.need('in')
            bind(inner_of(self.expression(False)))
            self.block()
            self.scopes.pop()
            return UNIT
        if self.take('return', 'break'):
            if self.ahead() and not self.sees(';', '}', ','):
                self.expression(struct)
            return NONE
        if self.take('continue'):
            return NONE
        if self.sees('|', '||', 'move'):
            return self.closure()
        if text in ('true', 'false'):
            self.next()
            return BOOL
        if re.match(r'[0-9]|b?\'', text):
            self.next()
            return NUMBER
        if re.match(r'b?"', text):
            self.next()
            return Type('str', ())
        if text.startswith("'"):
            self.next()
            self.need(':')
            return self.head(struct)
        return self.named(struct)

    def closure(self):
        self.take('move')
        self.scopes.append({})
        if not self.take('||'):
            self.need('|')
            while not self.take('|'):
                _, _, bind = self.one_pattern()
                bind(self.type(self.function.owner, self.function.bounds) if self.take(':') else self.given)
                self.take(',')
        if self.take('->'):
            self.type(self.function.owner, self.function.bounds)
        kind = self.expression()
        self.scopes.pop()
        return Type('Fn', (kind,))

    def head_of_condition(self):
        """What stands behind `if` or `while`: whether it is taken, and whether what is else is."""
        if not self.take('let'):
            self.expression(False)
            return True, True
        taken, whole, bind = self.pattern()
        self.need('=')
        kind = self.expression(False)
        bind(kind)
        known = self.world.choice.taken.get(getattr(kind.head, 'name', kind.head))
        return taken, not (whole is None or known and known <= whole)

    def condition(self):
        self.scopes.append({})
        taken, other = self.head_of_condition()
        kind = self.left(self.block) if taken else self.muted(self.block)[0]
        self.scopes.pop()
        if self.take('else'):
            read = self.condition if self.take('if') else None
            if read is None:
                also = self.left(self.block) if other else self.muted(self.block)[0]
            else:
                also = read() if other else self.muted(read)
            kind = kind if taken and kind != NONE else also
        return kind

    def match(self):
        kind = self.expression(False)
        known, covered, answer = self.world.choice.taken.get(getattr(kind.head, 'name', kind.head)), set(), NONE
        self.need('{')
        while not self.take('}'):
            self.scopes.append({})
            taken, whole, bind = self.pattern()
            bind(kind)
            guarded = self.sees('if')
            if whole is None and known and known <= covered:
                taken = False
            if taken:
                if self.take('if'):
                    self.expression()
                self.need('=>')
                part = self.arm()
                answer = part if answer in (NONE, UNIT) or NONE in answer.args else answer
            else:
                self.muted(self.unread)
            if whole and not guarded:
                covered |= whole
            self.scopes.pop()
            self.take(',')
        return answer

    def unread(self):
        """The rest of an arm, behind its pattern."""
        if self.take('if'):
            self.expression()
        self.need('=>')
        self.expression()

    def arm(self):
        """An arm: if it leaves, or makes a variant that isn't taken, what it calls isn't on the way."""
        if self.sees('{'):
            return self.left(self.block)
        at = self.at
        while self.ahead(at - self.at) in ('Ok', 'Some', '('):
            at += 1
        path = [self.tokens[at].text]
        while self.tokens[at + 1].text == '::':
            at += 2
            path.append(self.tokens[at].text)
        enum, variant = self.variant(path)
        if self.sees('return') or enum in self.world.choice.made and variant not in self.world.choice.taken[enum]:
            return self.muted(self.expression)
        return self.expression()

    def named(self, struct):
        """A path, with what it is given."""
        if self.ahead() == '<':
            raise SyntaxError(f'{self.source.file}:{self.tokens[self.at].line}')
        path = [self.next()]
        while self.sees('::'):
            self.next()
            if self.sees('<'):
                self.arguments(self.function.owner, self.function.bounds)
            else:
                path.append(self.next())
        if self.sees('!'):
            self.next()
            tokens = self.group()
            if path[-1] == 'matches':
                inner = Body(self.world, self.function)
                inner.tokens, inner.scopes = tokens, self.scopes
                inner.expression()
                self.calls += inner.calls
                return BOOL
            if path[-1] not in ('unreachable', 'panic'):
                self.listed(tokens)
            return NONE
        if len(path) == 1:
            for scope in reversed(self.scopes):
                if path[0] in scope:
                    return scope[path[0]]
        if path[-1] in ('Some', 'Ok', 'Err') and self.sees('('):
            kinds = self.listed(self.group())
            if path[-1] == 'Some':
                return Type('Option', tuple(kinds))
            return Type('Result', tuple(kinds) if path[-1] == 'Ok' else (NONE, *kinds))
        if path[-1] == 'None':
            return Type('Option', (NONE,))
        own = self.function.owner
        if path[0] == 'Self' and own:
            item, rest = own.head, tuple(path[1:])
        elif path[0] in self.function.bounds:
            item, rest = Open(path[0], self.function.bounds[path[0]]), tuple(path[1:])
        else:
            item, rest = self.world.find(self.source.crate, self.source.module, tuple(path))
        return self.item(item, rest, path, struct)

    def item(self, item, rest, path, struct):
        """The type of what a path names: an item, and what follows of the path; or nothing of the repository."""
        world = self.world
        if item is None:
            if path[-2:-1] == ['Box'] and self.sees('('):
                kinds = self.listed(self.group())
                return Type('Result', (kinds[-1], NONE)) if path[-1] == 'new' else kinds[0]
            if path[-1] == 'replace' and self.sees('('):
                return self.listed(self.group())[0]
            if self.sees('('):
                self.listed(self.group())
                return Type('Vec', (NONE,)) if path[-2:-1] == ['Vec'] else NONE
            if struct and self.sees('{') and path[-1][0].isupper():
                self.fields_given()
            return NUMBER if path[-1].isupper() else NONE
        if item in world.variants and rest:
            self.makes.add((item.name, rest[0]))
            self.given_to(struct)
            return Type(item, ())
        if not rest and world.items.get(item) in ('struct', 'enum'):
            self.given_to(struct)
            return Type(item, ())
        if not rest and item in world.consts:
            return world.consts[item]
        called = world.methods.get((item, rest[0] if rest else None))
        if called is None and isinstance(item, Open):
            called = self.world.stood_for(item.trait, rest[0])
        if called is None:
            if self.sees('('):
                self.listed(self.group())
            return NONE
        self.calls.append(called)
        if self.sees('('):
            kinds = self.listed(self.group())
            return self.answered(called, kinds)
        return Type('Fn', (called.answer,))

    def answered(self, called, kinds):
        """What a call answers, where its open types are those that it is given."""
        names, args = [], []

        def match(open_kind, kind):
            if isinstance(open_kind.head, Open):
                if kind != NONE:
                    names.append(open_kind.head.name)
                    args.append(kind)
            else:
                for one, other in zip(open_kind.args, kind.args):
                    match(one, other)
        for (_, param), kind in zip(called.params, kinds):
            if param:
                match(param, kind)
        return self.filled(called.answer, names, args)

    def given_to(self, struct):
        if self.sees('('):
            return self.listed(self.group())
        if struct and self.sees('{'):
            self.fields_given()
        return []

    def fields_given(self):
        tokens, self.tokens, at = self.tokens, self.group(), self.at
        self.at = 0
        while self.ahead():
            if self.take('..'):
                self.expression()
            elif self.ahead(1) == ':':
                self.at += 2
                self.expression()
            else:
                self.next()
            self.take(',')
        self.tokens, self.at = tokens, at

    def field(self, kind, name):
        if kind.head in self.world.fields:
            names, rows = self.world.fields[kind.head]
            return self.filled(rows.get(name, NONE), names, kind.args)
        if kind.head == '()' and name.isdigit() and int(name) < len(kind.args):
            return kind.args[int(name)]
        return NONE

    def method(self, kind, name):
        called = None
        if isinstance(kind.head, Item):
            called = self.world.methods.get((kind.head, name))
        elif isinstance(kind.head, Open):
            called = self.world.stood_for(kind.head.trait, name)
        if called is not None:
            self.calls.append(called)
            kinds = self.listed(self.group())
            return self.answered(called, [kind, *kinds])
        if kind == NONE:
            self.unknown.append(name)
        kinds = self.listed(self.group(), inner_of(kind))
        return of_std(kind, name, kinds)


def of_std(kind, name, kinds):
    """What a method of std answers."""
    function = next((inner_of(one) for one in kinds if one.head == 'Fn'), NONE)
    if name in ('is_some', 'is_none', 'is_ok', 'is_err', 'is_some_and', 'any', 'all', 'is_empty', 'contains',
                'contains_key'):
        return BOOL
    if name in ('len', 'min', 'max', 'saturating_sub', 'saturating_add', 'wrapping_add', 'count', 'pow'):
        return NUMBER
    if kind.head == 'Option':
        if name in ('map', 'and_then'):
            return Type('Option', (function,)) if name == 'map' else function
        if name in ('unwrap', 'expect', 'unwrap_or', 'unwrap_or_default'):
            return inner_of(kind)
        if name in ('map_or', 'map_or_else'):
            return kinds[0]
        if name in ('ok_or', 'ok_or_else'):
            return Type('Result', (inner_of(kind), *kinds[:1]))
        return kind
    if kind.head == 'Result':
        if name in ('unwrap', 'expect', 'unwrap_or'):
            return inner_of(kind)
        if name == 'map':
            return Type('Result', (function, *kind.args[1:]))
        if name == 'ok':
            return Type('Option', (inner_of(kind),))
        return kind
    if kind.head == 'HashMap':
        return Type('Option', kind.args[1:]) if name in ('get', 'get_mut', 'insert', 'remove') else kind
    if kind.head == 'Vec':
        if name in ('get', 'get_mut', 'first', 'last', 'pop', 'next', 'find', 'first_mut', 'last_mut'):
            return Type('Option', kind.args[:1])
        if name == 'position':
            return Type('Option', (NUMBER,))
        if name == 'map':
            return Type('Vec', (function,))
        if name in ('push', 'extend_from_slice', 'reserve', 'copy_from_slice'):
            return Type('Result', (UNIT, NONE))
        if name == 'enumerate':
            return Type('Vec', (Type('()', (NUMBER, inner_of(kind))),))
        if name == 'zip':
            return Type('Vec', (Type('()', (inner_of(kind), inner_of(kinds[0]))),))
    return kind
