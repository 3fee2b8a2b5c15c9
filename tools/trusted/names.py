"""Finds what names of specs and of src mean, and makes nodes of items of src."""
import os
import re

from sources import IDENT, Source, split_at
from specs import Node, Part, Spec

DECLARES = ('struct', 'enum', 'trait', 'const', 'static', 'type')


class Place:
    """Where a text of src stands: its item, what its names mean, and the types of its values."""

    def __init__(self, item, values=None):
        self.item, self.source, self.scope, self.values = item, item.source, item.scope, values or {}

    def owner(self, kinds=('trait', 'impl')):
        """The trait or the block in which it stands."""
        item = self.item
        while item and item.kind not in kinds:
            item = item.parent
        return item


class Repository:
    """The files of the repository, each read once, when it is needed."""

    def __init__(self, root):
        self.root = root
        with open(os.path.join(root, 'crates.txt'), encoding='utf-8') as file:
            lines = [line for line in file if line.strip() and not line.startswith('#')]
        self.crates = [re.split(r'[\s:]', line)[0] for line in lines]
        self.kept, self.read = {}, {}

    def text(self, file):
        """The text of a file, by its path from the root."""
        with open(os.path.join(self.root, file), encoding='utf-8') as opened:
            return opened.read()

    def spec(self, file):
        """A file of specs, or None."""
        if file not in self.kept:
            there = os.path.isfile(os.path.join(self.root, file))
            self.kept[file] = Spec(file, self.text(file)) if there else None
        return self.kept[file]

    def sources(self, crate):
        """The files of a crate's src."""
        if crate not in self.read:
            top, found = 'crates/%s/src' % crate, []
            for folder, _, names in os.walk(os.path.join(self.root, top)):
                for name in sorted(each for each in names if each.endswith('.rt')):
                    file = os.path.relpath(os.path.join(folder, name), self.root)
                    modules = file[len(top) + 1:-3].split('/')
                    if modules[-1] in ('lib', 'main', 'mod'):
                        modules.pop()
                    found.append(Source(crate, file, modules, self.text(file)))
            self.read[crate] = found
        return self.read[crate]

    def items(self, crate, kinds):
        """The items of a crate of these kinds, but for those in functions."""
        todo = [item for source in self.sources(crate) for item in source.items]
        while todo:
            item = todo.pop(0)
            todo.extend(item.items)
            if item.kind in kinds:
                yield item

    def declared(self, crate, path, kinds=DECLARES, depth=0):
        """The items of a crate that a path names: those in that module, else all of that name, else
        those that the crate has from another one."""
        named = [item for item in self.items(crate, kinds) if item.name == path[-1]
                 and (not item.parent or item.parent.kind == 'mod'
                      or (item.kind == 'const' and [item.parent.name] == path[-2:-1]))]
        exact = [item for item in named if item.path() + [item.name] == path]
        if named or depth > 4:
            return exact or named
        found = []
        for source in self.sources(crate):
            used = source.uses.get(path[-1])
            if used and used[0] in self.crates and used[0] != crate:
                found.extend(self.declared(used[0], used[1:], kinds, depth + 1))
        return found


class Names:
    """Finds what names mean, as nodes."""

    def __init__(self, repository):
        self.repository, self.nodes, self.kit, self.lost = repository, {}, set(), set()

    def lookup(self, path, name, is_sure=True):
        """The nodes of a name of a module of antt. A name of the kit is noted."""
        crate = path[1] if len(path) > 1 else ''
        if path[0] != 'Rattle' or crate not in self.repository.crates:
            if is_sure:
                self.kit.add(name)
            return []
        if path[2:4] == ['specs', 'declared']:
            found = self.of_declared(crate, [each for each in path[4:] if each != 'TheVariants'], name)
        elif path[2:4] == ['specs', 'contracts']:
            found = self.of_contracts(crate, path[4:] + [name])
        else:
            found = self.of_spec(path, name)
        if not found and is_sure:
            self.lost.add('.'.join(path + [name]))
        return found

    def of_spec(self, path, name):
        """The definitions of that name in a file of specs or of proofs."""
        for end in range(len(path), 2, -1):
            spec = self.repository.spec('crates/%s.antt' % '/'.join(path[1:end]))
            if spec:
                own = spec.scope.own.get(name, [])
                return own or [node for there, called in spec.scope.names.get(name, [])
                               if there != path for node in self.lookup(there, called, False)]
        return []

    def of_declared(self, crate, path, name):
        """The items that a name below `declared` means."""
        for each in (path, path[:-1] + [name], [name]):
            found = self.repository.declared(crate, each) if each and each[-1] != 'TheConstants' else []
            if found:
                return [self.node(item) for item in found]
        return []

    def of_contracts(self, crate, words):
        """What names below `contracts` are of: types, and blocks of a trait, named by both."""
        found = [item for item in self.repository.items(crate, ('impl',))
                 if item.trait and item.name + item.trait in words]
        for word in words:
            found.extend(self.repository.declared(crate, [word]))
        return [self.node(item) for item in found]

    def rust_path(self, names, source):
        """The crate of a path of Rust and what is behind it, or None where it is the kit's."""
        path = source.uses.get(names[0], []) + names[1:] if names[0] in source.uses else names
        if path[0] in ('crate', 'self', 'super'):
            return source.crate, [each for each in path[1:] if each != 'super']
        if path[0] in self.repository.crates:
            return path[0], path[1:]
        return (source.crate, path) if names[0] not in source.uses else None

    def rust_items(self, name, place, kinds=DECLARES):
        """The items that a name of Rust means in a place."""
        names, source = name.split('::'), place.source
        if len(names) == 1:
            own = [item for item in source.items if item.kind in kinds and item.name == name]
            found = own or (self.rust_path(names, source) if name in source.uses else None)
            if own or not (found or source.globs):
                return own
            for path in [] if found else source.globs:
                glob = self.rust_path(path + [name], source)
                items = self.repository.declared(glob[0], glob[1], kinds) if glob and glob[1] else []
                if items:
                    return items
        else:
            found = self.rust_path(names, source)
        if not found or not found[1]:
            return []
        items = self.repository.declared(found[0], found[1], kinds)
        return items or (self.repository.declared(found[0], found[1][:-1], kinds) if found[1][1:] else [])

    def rust(self, text, place):
        """The nodes that a type of Rust cites."""
        nodes = []
        for name in IDENT.findall(re.sub(r"'\w+", '', text)):
            if name.split('::')[0] == 'Self':
                nodes.extend(self.of_self(place))
            elif name.split('::')[0] in place.item.bounds():
                nodes.extend(self.of_bound(name.split('::')[0], place) if '::' in name else [])
            else:
                nodes.extend(self.node(item) for item in self.rust_items(name, place))
        return nodes

    def of_self(self, place):
        """What `Self` means: the trait, or the type of the block, and what the block says of it."""
        owner = place.owner(('trait', 'impl', 'struct', 'enum'))
        if owner is None:
            return []
        if owner.kind != 'impl':
            return [self.node(owner)]
        own = [self.node(owner)] if owner.trait and owner.trait != 'Model' else []
        return own + [self.node(item) for item in self.rust_items(owner.name, place)]

    def of_bound(self, name, place):
        """The traits that bound a type parameter."""
        bound = place.item.bounds().get(name, '')
        return [self.node(item) for trait in IDENT.findall(bound)
                for item in self.rust_items(trait, place, ('trait',))]

    def of_dictionary(self, kind, trait, place):
        """What a type's block of a trait says, and both."""
        nodes, name = self.rust(kind + ' ' + trait, place), IDENT.findall(kind)[0].split('::')[-1]
        trait = IDENT.findall(trait)[0].split('::')[-1]
        for crate in sorted({self.crate_of(node) for node in nodes} | {place.source.crate}):
            nodes.extend(self.node(item) for item in self.repository.items(crate, ('impl',))
                         if item.trait == trait and item.name == name)
        return nodes

    def crate_of(self, node):
        """The crate of a node."""
        return node.file.split('/')[1]

    def node(self, item):
        """The node of an item of src."""
        if id(item) not in self.nodes:
            self.nodes[id(item)] = made = node_of(item, self.model_of(item))
            made.item = item
        return self.nodes[id(item)]

    def model_of(self, item):
        """The line that says what contracts see of a type, or None."""
        if item.kind not in ('struct', 'enum'):
            return None
        for block in self.repository.items(item.source.crate, ('impl',)):
            if block.trait == 'Model' and block.name == item.name:
                return next((each for each in block.children('ghost') if each.name == 'Value'), None)
        return None


def members(item):
    """The parts and lines of a trait, or of a block of one: ghost members, types, and clauses."""
    place, lines = Place(item), [item.lines(end=item.body[0], above=item.kind == 'trait')]
    parts = [Part(None, item.head.split('{')[0].split('trait', 1)[-1], place, True)]
    for each in item.items:
        if each.kind in ('ghost', 'type', 'const'):
            lines.append(each.lines())
            text = re.split('[:=]', each.text() + ':', maxsplit=1)[1]
            parts.append(Part(None, text, place, each.kind != 'ghost'))
        elif each.kind == 'fn' and each.clauses:
            lines.append(each.lines(end=each.clauses[-1][4], above=False))
            parts.extend(clause_parts(each))
    return parts, [line for some in lines for line in some]


def clause_parts(item, label=None):
    """The parts of a function's contract, or of the clauses of that label."""
    place = Place(item, item.params())
    return [Part(None, item.text(opened + 1, last), place) for word, name, _, opened, last in item.clauses
            if label in (None, name) or word == 'ghost']


def node_of(item, value):
    """The node of an item, of which contracts see that value, or None."""
    place, name, lines = Place(item), item.name, item.lines()
    if value:
        parts = [Part(None, value.text().split('=', 1)[1], Place(value))]
        kind, lines, item = 'the value of ' + item.kind, value.lines(), value
    elif item.kind == 'struct':
        fields, facts = item.fields()
        parts = [Part(field, text, place, True) for field, text in fields.items()]
        parts, kind = parts + [Part(None, fact, place) for fact in facts], item.kind
    elif item.kind == 'enum':
        inside = item.text(item.body[0] + 1, item.body[1])
        kinds = [re.sub(r'^(\s*#\[[^\]]*\])*\s*\w+', '', part) for part in split_at(inside, ',')]
        parts, kind = [Part(None, text, place, True) for text in kinds], item.kind
    elif item.kind in ('trait', 'impl'):
        parts, lines = members(item)
        kind = item.kind if item.kind == 'trait' else 'impl %s for' % item.trait
    else:
        parts, kind = [Part(None, re.split('[:=]', item.text(), maxsplit=1)[-1], place, True)], item.kind
    return Node(item.source.file, item.source.line_at(item.start), kind, name, lines, parts)
