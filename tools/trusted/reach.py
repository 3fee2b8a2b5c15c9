"""What a contract reaches: the closure over the names that definitions cite."""
import re

from names import Names, Place
from specs import Part, cited

# What the kit and the language have of plain types. A type with any other name of theirs in it, as
# `≡` or `IsTrue`, may be a fact.
KIT_DATA = set('ℕ ℤ Bool List Option Result Unit Vec String Float × → Type 0'.split())
# How a clause names what the block of a trait for a type says.
DICTIONARY = re.compile(r'⟦\s*<(.+?)\s+as\s+(.+?)>\s*⟧', re.S)
ALIAS = re.compile(r'\s*(?:(?:abbrev|unfoldable|pub)\s+)*\S+\s*:([^:]*?Type 0)\s*\n\S+([^=]*)=(.*)$', re.S)


class Reached(Names):
    """The closure of some parts, and of some blocks."""

    def __init__(self, repository, parts, blocks=()):
        super().__init__(repository)
        self.found, self.fields, self.done = {}, set(), set()
        self.plain, self.facts = [], set()
        for block in blocks:
            self.found[id(self.node(block))] = self.node(block)
        for part in parts:
            self.follow(part)
        self.first = list(self.found.values())
        self.close()

    def close(self):
        """Follows all parts that count, until there are no more."""
        todo = True
        while todo:
            todo = [part for node in list(self.found.values()) for part in node.parts
                    if id(part) not in self.done and self.counts(part, node)]
            for part in todo:
                self.done.add(id(part))
                self.follow(part)

    def counts(self, part, node):
        """Whether a part of a node counts: of plain data a field does once its name is cited, and
        all else does."""
        return part.field is None or part.field in self.fields or not self.is_plain(node)

    def follow(self, part):
        """Takes in what a part cites, and the heads of the blocks in which that stands."""
        for node in self.cites(part):
            while node and id(node) not in self.found:
                self.found[id(node)] = node
                node = getattr(node, 'block', None)

    def cites(self, part):
        """The nodes that a part cites. Its fields are noted."""
        if part.is_rust:
            return self.rust(part.text, part.scope)
        nodes, text = [], part.text
        if isinstance(part.scope, Place):
            for kind, trait in DICTIONARY.findall(text):
                nodes.extend(self.of_dictionary(kind, trait, part.scope))
            text = DICTIONARY.sub(' _ ', text).replace('_ .', '_.')
        names, fields = cited(text)
        self.fields |= fields
        for name in names:
            words = [word for word in name.split('.') if word]
            self.fields.update(words[1:])
            nodes.extend(self.meaning(words, part.scope) if words else [])
        return nodes

    def meaning(self, words, place):
        """The nodes that a name with its dots means in a place."""
        nodes, scope = [], place
        if isinstance(place, Place):
            scope = place.scope
            if words[0] in place.values:
                return self.rust(place.values[words[0]], place)
            if words[0] in place.item.bounds():
                return self.of_bound(words[0], place) if words[1:] else []
            if words[0] == 'Self':
                owner = place.owner()
                own = self.rust('::'.join([owner.name] + words[1:2]), place) if owner and words[1:] else []
                return own + self.of_self(place)
        if words[0] == 'Rattle':
            return self.lookup(words[:-1], words[-1])
        own, imported = scope.found(words[0])
        nodes.extend(own)
        for path, name in imported:
            nodes.extend(self.lookup(path, name))
        for path in scope.modules_called(words[0]) if words[1:] else []:
            nodes.extend(self.lookup(path, words[1], not imported))
        if isinstance(place, Place) and not (own or imported or nodes):
            for end in range(1, len(words[:2]) + 1):
                nodes.extend(self.rust('::'.join(words[:end]), place))
        return nodes

    def is_plain(self, node):
        """Whether values of a type are plain data, with no fact in them: numbers, truth values,
        lists, options, values of type parameters, functions, and others of plain types."""
        if id(node) in self.facts:
            return False
        if id(node) in self.plain:
            return True
        # It counts as plain while its own parts are looked at. What was found plain meanwhile is
        # asked anew where it isn't.
        before = len(self.plain)
        self.plain.append(id(node))
        if self.has_plain_parts(node):
            return True
        del self.plain[before:]
        self.facts.add(id(node))
        return False

    def has_plain_parts(self, node):
        """Whether the parts of a type say that it is plain."""
        item = getattr(node, 'item', None)
        if item is not None:
            is_type = item.kind in ('struct', 'enum', 'type')
            facts = item.kind == 'struct' and item.fields()[1]
            return is_type and not facts and all(self.is_plain_part(part, set()) for part in node.parts)
        text = '\n'.join(line for line in node.lines if not line.strip().startswith('--'))
        scope, params = node.parts[0].scope, set()
        alias = ALIAS.match(text) if node.kind == 'definition' else None
        if alias:
            part = Part(None, alias.group(1) + alias.group(3), scope)
            return self.is_plain_part(part, set(alias.group(2).split()))
        for names in re.findall(r'[({]([^(){}:]+):\s*Type 0\s*[)}]', text.split(' where')[0]):
            params |= set(names.split())
        parts = [part for part in node.parts if part.field is not None]
        if node.kind == 'data':
            parts = [Part(None, line.split(':', 1)[-1], scope) for line in text.split('\n')[1:]]
        return node.kind in ('record', 'data') and all(self.is_plain_part(part, params) for part in parts)

    def is_plain_part(self, part, params):
        """Whether the text of a type is plain."""
        if part.is_rust:
            return all(self.is_plain(node) for node in self.rust(part.text, part.scope))
        names = [name for name in cited(part.text)[0] if name not in params and name not in KIT_DATA]
        if isinstance(part.scope, Place):
            names = [name for name in names if name not in part.scope.item.bounds()]
        kit, lost = set(self.kit), set(self.lost)
        found = [self.meaning([word for word in name.split('.') if word], part.scope) for name in names]
        self.kit, self.lost = kit, lost
        return all(some and all(self.is_plain(node) for node in some) for some in found)
