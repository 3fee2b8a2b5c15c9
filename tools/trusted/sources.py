"""Reads files of src: their items, the clauses of their functions, and what their names mean."""
import re

from specs import Scope

MASKED = re.compile(r'//[^\n]*|/\*.*?\*/|(?<!\w)b?r(#*)".*?"\1|b?"(?:\\.|[^"\\])*"'
                    r'|(?<![\w\'])b?\'(?:\\[^\']+|[^\\\'\n])\'', re.S)
HEAD = re.compile(r'(?:pub(?:\s*\([^)]*\))?\s+)?'
                  r'(?:(?:unsafe|async|extern|const(?=\s+(?:unsafe\s+)?fn\b))\s+)*'
                  r'(fn|struct|enum|trait|impl|mod|const|static|type|use|ghost|macro_rules!)(?=\W)')
CLAUSE = re.compile(r'(requires|ensures|ghost)\b(\*?)\s*(\w*)\s*:?\s*\{')
IDENT = re.compile(r'[A-Za-z_]\w*(?:::[A-Za-z_]\w*)*')
OPEN, CLOSE = '([{', ')]}'


def closing(text, at):
    """Where the bracket at `at` is closed."""
    depth = 0
    for place in range(at, len(text)):
        depth += (text[place] in OPEN) - (text[place] in CLOSE)
        if depth == 0:
            return place
    return len(text) - 1


def split_at(text, mark):
    """The parts of a text between marks that stand in no bracket, angles among them."""
    parts, depth, start, place = [], 0, 0, 0
    plain = text.replace('->', '  ')
    while place < len(plain):
        char = plain[place]
        if char in OPEN:
            place = closing(plain, place)
        depth += (char == '<') - (char == '>')
        if char == mark and depth == 0:
            parts.append(text[start:place])
            start = place + 1
        place += 1
    return parts + [text[start:]]


def angles(head):
    """Where the type parameters of a head begin and end: two places of its angles, the same two
    where it has none."""
    plain = head.replace('->', '  ')
    named = re.search(r'\b(?:impl|(?:fn|struct|enum|trait|type)\s+\w+)\s*', plain)
    place = named.end() if named else 0
    if plain[place:place + 1] != '<':
        return place, place
    depth, first = 1, place
    while depth and place + 1 < len(plain):
        place += 1
        depth += (plain[place] == '<') - (plain[place] == '>')
    return first, place


def generics(head):
    """For each type parameter of a head the text of its bounds."""
    bounds, plain = {}, head.replace('->', '  ')
    pieces = re.split(r'\bwhere\b', plain)[1:]
    first, last = angles(plain)
    pieces.append(plain[first + 1:last])
    for piece in pieces:
        for part in split_at(piece, ','):
            name, _, bound = part.partition(':')
            name = name.strip().split(' ')[-1]
            if re.match(r'[A-Za-z_]\w*$', name):
                bounds[name] = bounds.get(name, '') + ' ' + bound
    return bounds


class Item:
    """An item of a file: its kind and name, where it stands, and its head without a body."""

    def __init__(self, source, kind, start, parent):
        self.source, self.kind, self.start, self.parent = source, kind, start, parent
        self.name, self.head, self.body, self.end = '', '', None, start
        self.clauses, self.items = [], []
        self.trait = None
        self.scope = parent.scope if parent else source.scope

    def path(self):
        """The modules and the type before its name."""
        return (self.parent.path() + [self.parent.name] if self.parent else list(self.source.modules))

    def text(self, start=None, end=None):
        """The text of it, or of a part, without comments."""
        return self.source.masked[self.start if start is None else start:self.end if end is None else end]

    def bounds(self):
        """The bounds of its type parameters, and of those of its block."""
        return dict(self.parent.bounds() if self.parent else {}, **generics(self.head))

    def children(self, kind):
        """Its items of a kind."""
        return [item for item in self.items if item.kind == kind]

    def lines(self, start=None, end=None, above=True):
        """Its lines as they stand, or those of a part; with the comments and attributes above."""
        all_lines, begin = self.source.lines, self.source.line_at(self.start if start is None else start)
        last = self.source.line_at(self.end if end is None else end)
        while above and begin and re.match(r'\s*(//(?!!)|#\[)', all_lines[begin - 1]):
            begin -= 1
        return all_lines[begin:last + 1]

    def params(self):
        """For each parameter of a function the text of its type; `result` is what it returns."""
        opened = self.head.index('(', angles(self.head)[1])
        closed = closing(self.head, opened)
        found = {'self': 'Self', 'result': self.head[closed + 1:].split(' where ')[0]}
        for part in split_at(self.head[opened + 1:closed], ','):
            name, _, kind = part.partition(':')
            for each in re.findall(r'[a-z_]\w*', name):
                found.setdefault(each, kind)
        return found

    def fields(self):
        """The fields of a struct, each with the text of its type, and its ghost facts."""
        opened = re.search(r'[({]', self.text()).start() if re.search(r'[({]', self.text()) else None
        if opened is None:
            return {}, []
        inside = self.text()[opened + 1:closing(self.text(), opened)]
        found, facts = {}, []
        for number, part in enumerate(split_at(inside, ',')):
            part = re.sub(r'^(\s*#\[[^\]]*\])+', '', part).strip()
            part = re.sub(r'^pub(\([^)]*\))?\s+', '', part)
            name, _, kind = part.partition(':')
            if part.startswith('ghost '):
                facts.append(part[part.index('{'):])
            elif part:
                found[name.strip() if self.text()[opened] == '{' else str(number)] = kind or part
        return found, facts


class Source:
    """A file of src, read."""

    def __init__(self, crate, file, modules, text):
        self.crate, self.file, self.modules = crate, file, modules
        self.lines = text.split('\n')
        self.masked = MASKED.sub(lambda found: re.sub(r'[^\n]', ' ', found.group()), text)
        self.starts = [0]
        for line in self.lines:
            self.starts.append(self.starts[-1] + len(line) + 1)
        self.scope, self.uses, self.globs, self.items = Scope(), {}, [], []
        self.read(0, len(self.masked), None, self.items)

    def line_at(self, place):
        """The number of the line in which a place is, from 0."""
        low, high = 0, len(self.starts) - 1
        while high - low > 1:
            middle = (low + high) // 2
            low, high = (middle, high) if self.starts[middle] <= place else (low, middle)
        return low

    def read(self, at, end, parent, items):
        """Reads the items between two places."""
        while at < end:
            found = HEAD.match(self.masked, at)
            if found and (at == 0 or not re.match(r'\w', self.masked[at - 1])):
                item = Item(self, found.group(1), at, parent)
                self.shape(item, found.end(), end)
                at = item.end + 1
                self.enter(item, items)
            elif self.masked[at] in OPEN:
                at = closing(self.masked, at) + 1
            else:
                at += 1

    def shape(self, item, at, end):
        """Finds the name of an item, its clauses, its body and its end."""
        begun, text = at, self.masked
        braced = item.kind in ('struct', 'enum', 'trait', 'impl', 'mod', 'fn', 'macro_rules!')
        while at < end and text[at] != ';':
            begins = item.kind == 'fn' and not re.match(r'\w', text[at - 1])
            clause = CLAUSE.match(text, at) if begins else None
            if clause:
                item.head = item.head or text[item.start:at]
                last = closing(text, clause.end() - 1)
                item.clauses.append((clause.group(1), clause.group(3), at, clause.end() - 1, last))
                at = last + 1
            elif text[at] == '{' and braced:
                item.body = (at, closing(text, at))
                break
            elif text[at] in OPEN:
                at = closing(text, at) + 1
            else:
                at += 1
        item.head = item.head or text[item.start:at]
        item.end = item.body[1] if item.body else min(at, end - 1)
        named = re.match(r'\s*(?:mut\s+)?(\w+)', text[begun:at])
        item.name = named.group(1) if named and item.kind != 'impl' else ''
        if item.kind == 'impl':
            self.name_block(item)

    def name_block(self, item):
        """Names a block by its type, and finds its trait."""
        head = re.sub(r'\bwhere\b.*', '', item.head, flags=re.S).replace('->', '  ')
        while re.search(r'<[^<>]*>', head):
            head = re.sub(r'<[^<>]*>', ' ', head)
        trait, _, kind = head.strip()[4:].rpartition(' for ')
        names = IDENT.findall(re.sub(r"'\w+|\bmut\b|\bdyn\b", '', kind))
        item.name = names[0].split('::')[-1] if names else kind.strip()
        traits = IDENT.findall(trait)
        item.trait = traits[0].split('::')[-1] if traits else None

    def enter(self, item, items):
        """Takes an item into its list, and what stands in it."""
        if item.kind == 'use':
            self.take_uses(item.text()[item.text().index('use') + 3:].strip(), [])
        elif item.kind == 'ghost' and item.name == 'use':
            text = ' '.join(self.masked[item.start:item.end].split())
            (item.parent.scope if item.parent else self.scope).take(text.split(' ', 2)[2])
        else:
            items.append(item)
        if item.body and item.kind in ('trait', 'impl', 'mod'):
            item.scope = Scope(item.scope)
            self.read(item.body[0] + 1, item.body[1], item, item.items)

    def take_uses(self, text, before):
        """Takes a tree of imported names in."""
        text = text.strip().rstrip(';').strip()
        opened = text.find('{')
        if opened >= 0:
            path = before + [each for each in text[:opened].strip().rstrip(':').split('::') if each]
            for part in split_at(text[opened + 1:closing(text, opened)], ','):
                if part.strip():
                    self.take_uses(part, path)
            return
        name, _, alias = text.partition(' as ')
        path = before + name.strip().split('::')
        path = path[:-1] if path[-1] == 'self' else path
        if path[-1] == '*':
            self.globs.append(path[:-1])
        else:
            self.uses[alias.strip() or path[-1]] = path
