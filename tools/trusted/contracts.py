"""Finds the functions that a path names, and the contract that counts for one."""
from names import Names, Place


class Refused(Exception):
    """What was asked for isn't there."""


def exported(repository, words, depth):
    """The functions that a path means by a `pub use` of a module in it, of them or of their type."""
    crate = words[0]
    for end in range(1, len(words)):
        for source in repository.sources(crate) if depth < 5 else []:
            path = source.uses.get(words[end]) if source.modules == words[1:end] else None
            if not path:
                continue
            if path[0] == 'crate':
                path = [crate] + path[1:]
            elif path[0] not in repository.crates or path[0] == crate:
                path = words[:end] + path
            if path != words[:end + 1]:
                return functions(repository, path + words[end + 1:], depth + 1)
    return []


def functions(repository, words, depth=0):
    """The functions that these segments name: those at that path, else by a `pub use`, else all whose
    last segments they are."""
    if words[0] not in repository.crates:
        raise Refused('no crate %s' % words[0])
    named = [(item.path() + [item.name], item) for item in repository.items(words[0], ('fn',))
             if item.name == words[-1]]
    return [item for path, item in named if path == words[1:]] or exported(repository, words, depth) or [
        item for path, item in named if path[-len(words) + 1:] == words[1:]]


def function(repository, name):
    """The function of that name."""
    words = name.split('::')
    found = functions(repository, words) if words[1:] else []
    if len(found) == 1:
        return found[0]
    if not found:
        raise Refused('no function %s' % name)
    paths = ['::'.join(words[:1] + item.path() + [item.name]) for item in found]
    raise Refused('\n'.join(['%s may be' % name] + ['    %s' % path for path in paths]))


def contract(repository, item):
    """The function whose clauses count for it: for one in a block of a trait it is the trait's, and
    that block is needed, too."""
    block = item.parent
    if item.clauses or not block or not block.trait:
        return item, []
    names = Names(repository)
    for trait in names.rust_items(block.trait, Place(item), ('trait',)):
        for each in trait.children('fn'):
            if each.name == item.name:
                return each, [block]
    return item, []
