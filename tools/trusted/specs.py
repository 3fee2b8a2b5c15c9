"""Reads files of specs: their imports, their definitions, and the names in a text of antt."""
import re

COMMENT = re.compile(r'"(?:\\.|[^"\\\n])*"|(?<![^\s(){}\[\];,])--[^\n]*')
TOKEN = re.compile(r'[(){}\[\];,]|[^\s(){}\[\];,]+')
WORDS = r'(?:(?:abbrev|unfoldable|pub)\s+)*'
SHAPE = re.compile(r'^%s(record|data)\s+(\S+)' % WORDS)
PLAIN = re.compile(r'^%s([^\s(){};:]+)(?:\s+\{[^}]*\})?\s*:(?:\s|$)' % WORDS)
FIELD = re.compile(r'^\s+(?:pub\s+)?([^\s(){}:=]+)\s+:(?:\s|$)')
NOT_NAMES = {'abbrev', 'unfoldable', 'infix', 'infixl', 'infixr', 'open', 'module', 'use', 'mod'}


def without_comments(text):
    """The text with a space for each comment and each quoted text."""
    return COMMENT.sub(' ', text).replace('«', ' ').replace('»', ' ')


def tokens_of(text):
    """The tokens of a text of antt, brackets among them."""
    return TOKEN.findall(without_comments(text))


def binder_end(tokens, at):
    """Where a group `(a b : T)` opens at `at`, the place of its colon; else `at`."""
    end = at + 1
    while end < len(tokens) and tokens[end] not in '(){}[];,' and tokens[end] not in (':', '=', 'λ'):
        end += 1
    return end if end > at + 1 and end < len(tokens) and tokens[end] == ':' else at


def lambda_end(tokens, at):
    """Where a `λ x y.` begins at `at`, the place of its last variable; else `at`."""
    end = at + 1
    while end < len(tokens) and tokens[end] not in '(){}[];,':
        if tokens[end].endswith('.'):
            return end
        end += 1
    return at


def cited(text):
    """The names that a text cites, with their dots, and the fields that it names. What only binds a
    variable is left out; its uses are not, so a variable that is called like a definition cites it."""
    tokens, names, fields, at = tokens_of(text), [], set(), 0
    while at < len(tokens):
        token = tokens[at]
        if token in '({':
            at = binder_end(tokens, at)
        elif token.startswith('λ') and not token.endswith('.'):
            at = lambda_end(tokens, at)
        elif tokens[at + 1:at + 2] == ['='] and at and tokens[at - 1] in '{;':
            fields.add(token)
        elif token.startswith('.'):
            fields.update(token.split('.'))
        elif token not in ')}[];,' and not token.endswith('.'):
            names.append(token)
        if token == 'do':
            names.append('>>=')
        at += 1
    return names, fields - {''}


def import_of(line):
    """A `use` line without its first word: the path, the names as pairs of here and there, and what
    the module is called here, or None."""
    line = ' '.join(line.replace('«', '').replace('»', '').split()).rstrip(';').strip()
    if '{' in line:
        path, names = line.split('{', 1)
        pairs = []
        for name in names.rsplit('}', 1)[0].split(','):
            words = name.split()
            if words:
                pairs.append((words[-1], words[0]))
        return path.strip().rstrip('.').split('.'), pairs, None
    path, _, alias = line.partition(' as ')
    path = path.strip().split('.')
    return path, [], alias.strip() or path[-1]


def directly(lines):
    """The last of these lines, behind all blank ones."""
    blank = [place for place, line in enumerate(lines) if not line.strip()]
    return lines[blank[-1] + 1 if blank else 0:]


class Scope:
    """What names mean in a file, or in a block of one: definitions of its own, and imports."""

    def __init__(self, parent=None):
        self.parent = parent
        self.own = {}
        self.names = {}
        self.modules = {}

    def parts(self, name):
        """A name and, for an operator, the words of it that stand between its arguments."""
        return [name] + [part for part in name.split('◌') if part and '◌' in name]

    def define(self, name, node):
        """Gives a definition of this file its name."""
        for part in self.parts(name):
            self.own.setdefault(part, []).append(node)

    def take(self, line):
        """Takes a `use` line in, and answers its path."""
        path, pairs, alias = import_of(line)
        for here, there in pairs:
            for part in self.parts(here):
                self.names.setdefault(part, []).append((path, there))
            self.modules.setdefault(here, []).append(path + [there])
        if alias:
            self.modules.setdefault(alias, []).append(path)
        return path

    def found(self, name):
        """The definitions of that name here, and where it is imported from."""
        outer = self.parent.found(name) if self.parent else ([], [])
        return self.own.get(name) or outer[0], self.names.get(name) or outer[1]

    def modules_called(self, name):
        """The modules of that name here."""
        return self.modules.get(name) or (self.parent.modules_called(name) if self.parent else [])


class Part:
    """A piece of a definition: of which field, or None; its text; whether it is antt or Rust; and
    where its names are looked up."""

    def __init__(self, field, text, scope, is_rust=False):
        self.field, self.text, self.scope, self.is_rust = field, text, scope, is_rust


class Node:
    """Something that may be reached: a definition, or an item of src."""

    def __init__(self, file, line, kind, name, lines, parts):
        self.file, self.line, self.kind, self.name = file, line, kind, name
        self.lines = [each for each in lines if each.strip()]
        self.parts = parts

    def fields(self):
        """The names of its fields."""
        return [part.field for part in self.parts if part.field is not None]


def field_parts(lines, scope):
    """The parts of a record: its head, and one of each field."""
    depths = [0 if line.strip().startswith('--') else len(line) - len(line.lstrip()) for line in lines]
    head = next(k for k, line in enumerate(lines) if re.match(r'\s*(pub\s+)?record\s', line))
    start = next(k for k in range(head, len(lines)) if re.search(r'(^|\s)where\s*$', lines[k])) + 1
    depth = min([each for each in depths[start:] if each > depths[head]] or [0])
    begins = [k for k in range(start, len(lines)) if depths[k] == depth and FIELD.match(lines[k])]
    parts = [Part(None, '\n'.join(lines[head:(begins + [len(lines)])[0]]), scope)]
    for k, end in zip(begins, begins[1:] + [len(lines)]):
        text = '\n'.join(lines[k:end])
        parts.append(Part(FIELD.match(lines[k]).group(1), text.split(':', 1)[1], scope))
    return parts


class Spec:
    """A file of specs, read."""

    def __init__(self, file, text):
        self.file = file
        self.scope = Scope()
        self.imports = []
        self.length = sum(1 for line in text.split('\n') if line.strip())
        self.now = None
        self.above = []
        # the blocks `module _ .. where` that are open, each with its depth once that is known
        self.blocks = []
        for number, line in enumerate(text.split('\n') + ['use .{}']):
            self.read(number, line)

    def read(self, number, line):
        """Reads one more line."""
        depth, bare = len(line) - len(line.lstrip()), line.strip()
        if bare and not bare.startswith('--') and self.blocks and self.blocks[-1][1] is None:
            self.blocks[-1][1] = depth
        while bare and self.blocks and self.blocks[-1][1] is not None and depth < self.blocks[-1][1]:
            self.end()
            self.blocks.pop()
        left = (self.blocks[-1][1] or 0) if self.blocks else 0
        if not bare:
            self.above = self.above + [line] if self.now else []
        elif depth > left and self.now:
            self.go_on(line)
        elif bare.startswith('--') or re.match(r'infix[lr]?\s', bare):
            self.above = (self.above if self.above[-1:] != [''] else []) + [line]
        else:
            self.begin(number, line, bare)

    def go_on(self, line):
        """Reads a line of the definition that is being read."""
        self.now[-1].extend(self.above + [line])
        self.above = []
        if self.now[0] == 'module' and re.search(r'(^|\s)where\s*$', line):
            self.end()

    def begin(self, number, line, bare):
        """Reads a line at the left, which may begin a definition."""
        shape, plain = SHAPE.match(bare), PLAIN.match(bare)
        if re.match(r'(pub\s+)?(use|mod)\s', bare):
            self.end()
            self.above = []
            taken = re.match(r'(?:pub\s+)?use\s+(.*)', bare)
            if taken:
                self.imports.append(self.scope.take(taken.group(1)))
        elif shape or bare.startswith('module ') or (plain and plain.group(1) not in NOT_NAMES):
            self.end()
            kind, name = shape.groups() if shape else ('definition', plain.group(1) if plain else '')
            kind, name = ('module', '_') if bare.startswith('module ') else (kind, name)
            self.now = [kind, name, number, []]
            self.above = directly(self.above)
            self.go_on(line)
        elif self.now:
            self.go_on(line)

    def end(self):
        """Ends the definition that is being read."""
        if not self.now:
            return
        kind, name, number, lines = self.now
        self.now = None
        text = '\n'.join(lines)
        parts = field_parts(lines, self.scope) if kind == 'record' else [Part(None, text, self.scope)]
        node = Node(self.file, number, kind, name, lines, parts)
        node.block = self.blocks[-1][0] if self.blocks else None
        if kind == 'module':
            self.blocks.append([node, None])
            return
        self.scope.define(name, node)
        for constructor in re.findall(r'^\s+([^\s(){}:]+)\s+:\s', text, re.M) if kind == 'data' else []:
            self.scope.define(constructor, node)
