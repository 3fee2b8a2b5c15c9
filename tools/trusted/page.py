"""Writes what a contract rests on as one page of HTML, which needs no other file."""
import html
import re

NAME = re.compile(r'[^\s(){}\[\];,.⟦⟧<>]+')
COMMENT = re.compile(r'\s*(--|///?|#\[)')
STYLE = '''
:root { color-scheme: light dark; --line: #8886; --soft: #8881; }
body { font: 16px/1.5 system-ui, sans-serif; max-width: 62rem; margin: 2rem auto; padding: 0 1rem; }
h1 { font-size: 1.5rem; } h2 { font-size: 1.2rem; margin-top: 2.5rem; }
pre { background: var(--soft); padding: .6rem .8rem; overflow-x: auto; font: 14px/1.45 ui-monospace, monospace; }
details { border-left: 2px solid var(--line); margin: .4rem 0; padding-left: .8rem; }
summary { cursor: pointer; } summary code { font-weight: 600; }
.where, .by { color: color-mix(in srgb, CanvasText 70%, Canvas); font-size: .85rem; } .about { margin: .3rem 0; }
:target > summary { background: #fd06; }
'''
SCRIPT = '''
function show() {
  const there = document.getElementById(decodeURIComponent(location.hash.slice(1)));
  for (let up = there; up; up = up.parentElement) if (up.tagName === 'DETAILS') up.open = true;
  if (there) there.scrollIntoView();
}
addEventListener('hashchange', show); addEventListener('DOMContentLoaded', show);
function all(open) { for (const each of document.querySelectorAll('details')) each.open = open; }
'''


class Page:
    """The page of a contract, of all that it reaches."""

    def __init__(self, reached, parts):
        self.reached, self.nodes = reached, list(reached.found.values())
        self.uses = {None: self.cited(parts)}
        for node in self.nodes:
            counted = [part for part in node.parts if id(part) in reached.done]
            self.uses[id(node)] = self.cited(counted) + ([node.block] if getattr(node, 'block', None) else [])
        self.users = {id(node): [user for user in self.nodes
                                  if user is not node and any(node is each for each in self.uses[id(user)])]
                      for node in self.nodes}
        self.below = self.fold()

    def cited(self, parts):
        """What parts cite, each once, of what is reached."""
        found = []
        for part in parts:
            for node in self.reached.cites(part):
                if id(node) in self.reached.found and not any(node is each for each in found):
                    found.append(node)
        return found

    def fold(self):
        """For each node, and for the statement, the nodes that are folded under it: a node stands under
        the first of those nearest to the statement that use it."""
        below, done, todo = {None: []}, set(), [None]
        while todo:
            at = todo.pop(0)
            below.setdefault(at, [])
            for node in self.uses[at]:
                if id(node) not in done:
                    done.add(id(node))
                    below[at].append(node)
                    todo.append(id(node))
        rest = [node for node in self.nodes if id(node) not in done]
        for node in rest:
            below[None].append(node)
            below.setdefault(id(node), [])
        return below

    def key(self, node):
        """The name by which a node is linked."""
        file = re.sub(r'\.(antt|rt)$', '', node.file[len('crates/'):]).replace('/', '.')
        return '%s-%s' % (file, node.name if node.name not in ('_', '') else node.line)

    def link(self, node, text=None):
        return '<a href="#%s">%s</a>' % (html.escape(self.key(node), True), html.escape(text or node.name))

    def text(self, text, nodes, own=None):
        """A text with a link at each name of one of these nodes."""
        named = {node.name: node for node in nodes if node is not own}
        found, at = [], 0
        for word in NAME.finditer(text):
            node = named.get(word.group())
            found.append(html.escape(text[at:word.start()]))
            found.append(self.link(node) if node else html.escape(word.group()))
            at = word.end()
        return ''.join(found) + html.escape(text[at:])

    def entry(self, node):
        """The lines of a node, with those folded under it."""
        first = next((k for k, line in enumerate(node.lines) if not COMMENT.match(line)), 0)
        about = ' '.join(re.sub(r'^\s*(--|///?)\s?', '', line) for line in node.lines[:first]
                         if not line.strip().startswith('#['))
        users = ', '.join(self.link(user) for user in self.users[id(node)])
        yield '<details id="%s"><summary><code>%s</code> <span class="where">%s</span></summary>' % (
            html.escape(self.key(node), True), html.escape(node.name), html.escape(node.file))
        if about:
            yield '<p class="about">%s</p>' % html.escape(about)
        yield '<pre>%s</pre>' % self.text('\n'.join(node.lines[first:]), self.uses[id(node)], node)
        yield '<p class="by">used by %s</p>' % (users or '<a href="#statement">the statement</a>')
        for each in self.below[id(node)]:
            yield from self.entry(each)
        yield '</details>'


def trusted(kit, made):
    """What is trusted beside the definitions, with the count of each."""
    yield '<h2>What is trusted beside them</h2>\n<ul>'
    yield '<li>%d names of the kit, which were met and not followed: <code>%s</code></li>' % (
        len(kit), html.escape(' '.join(sorted(kit))))
    for count, what in (('1', 'prover, the kit\'s, with its logic'),
                        ('2', 'ways to machine code: LLVM, and the kit\'s own'),
                        ('1', 'C library, and the operating system below it'),
                        ('1', 'premise of the disk: a block of 1024 bytes is written whole, or not at all')):
        yield '<li>%s %s</li>' % (count, html.escape(what))
    yield '</ul>\n<p id="made">%s</p>' % html.escape(made)


def page(title, about, statement, reached, parts, made):
    """The text of the page. `about` is the comment above the function."""
    made_of = Page(reached, parts)
    lines = sum(len(node.lines) for node in made_of.nodes)
    head = '<!DOCTYPE html>\n<html lang="en"><head><meta charset="utf-8"><title>%s</title>' % html.escape(title)
    out = [head, '<meta name="viewport" content="width=device-width, initial-scale=1">',
           '<style>%s</style><script>%s</script></head><body>' % (STYLE, SCRIPT),
           '<h1 id="statement"><code>%s</code></h1>' % html.escape(title),
           '<p>%s</p>' % html.escape(about) if about else '',
           '<pre>%s</pre>' % made_of.text(statement, made_of.uses[None]),
           '<h2>What it rests on: %d definitions, %d lines</h2>' % (len(made_of.nodes), lines),
           '<p>Each definition is folded under what uses it, nearest to the statement. A name leads to its '
           'definition. No proof has to be read. <button onclick="all(true)">unfold all</button> '
           '<button onclick="all(false)">fold all</button></p>']
    for node in made_of.below[None]:
        out.extend(made_of.entry(node))
    out.extend(trusted(reached.kit, made))
    return '\n'.join(line for line in out if line) + '\n</body></html>\n'
