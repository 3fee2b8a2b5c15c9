#!/usr/bin/env python3
"""Draws docs/commit.svg, the disk after each write of one commit, from a run of the program: a write of
`to be` into an empty file, stopped before each of its writes, recovered, and read.

    commit.py PROGRAM     prints the picture
"""
import os
import re
import subprocess
import sys
import tempfile

WIDTH, HEIGHT, LEFT, TOP = 72, 26, 150, 62
STYLE = (
    'text{fill:#16191d}.old{fill:#fff;stroke:#8a929b}.new{fill:#56b4e9;stroke:#2b6f97}'
    '.names{fill:#b8480a;stroke:#7d3107}.stale{fill:#f1f2f4;stroke:#b9bfc6}.pale{fill:#555d66}'
    '.on-names{fill:#fff;font-weight:700}.middle{text-anchor:middle}.end{text-anchor:end}.bold{font-weight:700}'
    '.written{fill:none;stroke:#16191d;stroke-width:2.5}.nothing{fill:#f1f2f4;stroke:#8a929b}'
    '.all{fill:#d9f0e1;stroke:#0f6b3c}'
    '@media(prefers-color-scheme:dark){svg{background:#14171a}text{fill:#e8eaed}.old{fill:#14171a}'
    '.stale,.nothing{fill:#22272d}.pale{fill:#a3abb4}.written{stroke:#e8eaed}.all{fill:#173a27}'
    '.new+text{fill:#0b0d0f}}')


def run(program, *words):
    return subprocess.run([program, *words], check=True, capture_output=True, text=True).stdout


def write_file(name, text):
    with open(name, 'w', encoding='ascii') as file:
        file.write(text)


def begin(program):
    """An image with an empty file, and a script that writes it."""
    run(program, 'mkfs', 'a.img', '48', '16')
    write_file('turns', '0!\n')
    write_file('script', '0 create 2\n')
    run(program, 'replay', 'a.img', 'script', 'turns')
    write_file('script', '0 write 1 0 746f206265\n')


def writes_of(program):
    """Of each write its block, and what it is: log, header, home KIND or clear."""
    lines = re.findall(r'^write \d+ block (\d+) (log|header|home \d+ \w+|clear)', replayed(program), re.M)
    return [(int(block), re.sub(r'home \d+', 'home', what)) for block, what in lines]


def replayed(program, *words):
    with open('a.img', 'rb') as old, open('b.img', 'wb') as new:
        new.write(old.read())
    return run(program, 'replay', 'b.img', 'script', 'turns', '--writes', *words)


def texts_of(program, count):
    """What the file has behind a stop before each write, and behind the last, once it is recovered."""
    texts = []
    for stop in range(1, count + 2):
        replayed(program, *(['--stop', str(stop)] if stop <= count else []))
        run(program, 'recover', 'b.img')
        texts.append(run(program, 'cat', 'b.img', '1'))
    return texts


def rows_of(writes):
    """A name for each block, the header first, and what it has before the commit."""
    rows = {2: ('header', 'empty')}
    for block, what in writes:
        if what == 'log':
            rows[block] = ('log block %d' % block, 'stale')
        elif what.startswith('home'):
            rows[block] = ('home %d: %s' % (block, what.split()[1]), 'old')
    return rows


def box(column, row, text, written):
    """A block at a moment: what it has, outlined where it was just written."""
    shape = 'names' if text.startswith('names') else 'stale' if text in ('empty', 'stale') else text
    x, y = LEFT + WIDTH * column, TOP + HEIGHT * row
    inside = 'on-names' if shape == 'names' else 'pale' if shape == 'stale' else ''
    yield '<rect x="%d" y="%d" width="%d" height="%d" rx="3" class="%s"/>' % (x, y, WIDTH - 4, HEIGHT - 4, shape)
    yield label(x + WIDTH // 2 - 2, y + 15, ('middle ' + inside).strip(), text)
    if written:
        yield '<rect x="%d" y="%d" width="%d" height="%d" rx="4" class="written"/>' % (
            x - 1, y - 1, WIDTH - 2, HEIGHT - 2)


def label(x, y, kind, text):
    return '<text x="%d" y="%d" class="%s">%s</text>' % (x, y, kind, text)


def band(first, end, y, kind, text):
    """What recovery gives from one moment up to another."""
    x, width = LEFT + WIDTH * first, WIDTH * (end - first)
    yield '<rect x="%d" y="%d" width="%d" height="32" rx="3" class="%s"/>' % (x, y, width - 4, kind)
    yield label(x + width // 2 - 2, y + 20, 'middle', text)


def columns(writes, rows):
    """The blocks before the commit, and after each write."""
    count = len(rows) - 1 - sum(what.startswith('home') for _, what in writes)
    now = {block: text for block, (_, text) in rows.items()}
    for column, (written, what) in enumerate([(0, '')] + writes):
        if what:
            now[written] = {'header': 'names %d' % count, 'clear': 'empty'}.get(what, 'new')
        yield label(LEFT + WIDTH * column + WIDTH // 2 - 2, TOP - 8, 'middle bold', str(column) if what else 'before')
        for row, block in enumerate(rows):
            yield from box(column, row, now[block], block == written)


def picture(writes, texts):
    rows = rows_of(writes)
    kept = texts.index('to be')
    if texts != [''] * kept + ['to be'] * (len(texts) - kept) or writes[kept - 1][1] != 'header':
        sys.exit('commit: the header decides no more: %s' % texts)
    foot = TOP + HEIGHT * len(rows) + 10
    width, height = LEFT + WIDTH * len(texts) + 16, foot + 86
    yield ('<svg xmlns="http://www.w3.org/2000/svg" viewBox="0 0 %d %d" width="%d" height="%d" role="img" '
           'aria-labelledby="title text" font-family="system-ui,Liberation Sans,Arial,sans-serif" font-size="12">'
           % (width, height, width, height))
    yield '<title id="title">One commit: the disk after each of its writes</title>'
    yield ('<desc id="text">The log blocks are written, then the header, then the homes, then the empty header. '
           'A stop before the header keeps nothing of the write, and one behind it all.</desc>')
    yield '<style>%s</style>' % STYLE
    yield '<text x="%d" y="20" class="bold" font-size="15">One commit: the disk after each of its writes</text>' % LEFT
    yield from columns(writes, rows)
    for row, (name, _) in enumerate(rows.values()):
        yield label(LEFT - 10, TOP + HEIGHT * row + 15, 'end', name)
    yield label(LEFT - 10, foot + 20, 'end bold', 'after recovery')
    yield from band(0, kept, foot, 'nothing', 'the file is empty')
    yield from band(kept, len(texts), foot, 'all', 'the file has &#8220;to be&#8221;')
    yield label(LEFT + WIDTH * kept + WIDTH // 2 - 2, foot + 52, 'middle bold', '&#9650; the commit: one write decides')
    yield label(LEFT, foot + 74, 'pale', 'outlined: the block just written') + '</svg>'


def main():
    program = os.path.realpath(sys.argv[1])
    with tempfile.TemporaryDirectory() as folder:
        os.chdir(folder)
        begin(program)
        writes = writes_of(program)
        print('\n'.join(picture(writes, texts_of(program, len(writes)))))


if __name__ == '__main__':
    main()
