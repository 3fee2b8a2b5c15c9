"""Draws the tables of bench/run, which it reads, as a page with two pictures and no script: a bar for each
command, as long as its middle time, hatched where it is there for comparison; and the picture of
bench/growth, whose path is given.
"""

import html
import math
import re
import sys

NAME, BAR, ROW, TOP = 430, 420, 22, 60
STYLE = """
body { font-family: sans-serif; color: #111; background: #fff; margin: 1.5em; }
svg { max-width: 100%; height: auto; }
.own { fill: #33658a; } .other { fill: url(#hatched); stroke: #555; }
.mark { stroke: #ccc; } text { font-size: 12px; fill: #111; }
"""
HATCHED = ('<pattern id="hatched" width="6" height="6" patternUnits="userSpaceOnUse" patternTransform="rotate(45)">'
           '<rect width="6" height="6" fill="#fff"/><path d="M0 0v6" stroke="#555" stroke-width="2"/></pattern>')


def rows():
    """The command and the middle time in seconds of each row."""
    found = []
    for line in sys.stdin:
        cells = [cell.strip() for cell in line.strip().strip("|").split("|")]
        if len(cells) == 3 and re.fullmatch(r"\d+\.\d+", cells[2]):
            found.append((cells[0], float(cells[2])))
    return found


def bars(found):
    """The bars, by the logarithm of their times: from a millisecond on, a mark each ten times."""
    least = 0.001
    top = 10 ** math.ceil(math.log10(max(seconds for _, seconds in found)))
    span = math.log10(top / least)
    width, height = NAME + BAR + 90, TOP + ROW * len(found) + 20
    lines = [f'<svg xmlns="http://www.w3.org/2000/svg" role="img" viewBox="0 0 {width} {height}" width="{width}" '
             f'height="{height}"><title>Times of commands, in seconds</title>{HATCHED}']
    for power in range(round(span) + 1):
        x = NAME + BAR * power / span
        lines.append(f'<path class="mark" d="M{x:.1f} {TOP - 12}V{height - 16}"/>')
        lines.append(f'<text x="{x:.1f}" y="{TOP - 20}" text-anchor="middle">{least * 10 ** power:g} s</text>')
    for k, (name, seconds) in enumerate(found):
        y = TOP + ROW * k
        kind = "other" if name.startswith("for comparison") else "own"
        long = max(2, BAR * math.log10(max(seconds, least) / least) / span)
        said = html.escape(name)
        lines.append(f'<g tabindex="0"><title>{said}: {seconds:.3f} s</title>'
                     f'<text x="{NAME - 8}" y="{y + 11}" text-anchor="end">{said}</text>'
                     f'<rect class="{kind}" x="{NAME}" y="{y}" width="{long:.1f}" height="14"/>'
                     f'<text x="{NAME + long + 6:.1f}" y="{y + 11}">{seconds:.3f}</text></g>')
    return "\n".join(lines + ["</svg>"])


def main():
    with open(sys.argv[1], encoding="utf-8") as file:
        growth = file.read()
    print(f'<!doctype html>\n<html lang="en">\n<meta charset="utf-8">\n<title>Times of xvfs</title>\n<style>{STYLE}</style>')
    print("<h1>Times of xvfs</h1>\n<h2>Commands</h2>\n<p>The middle of several runs, in seconds; hatched: what the "
          "system or a plain loop takes for as many bytes.</p>")
    print(bars(rows()))
    print("<h2>Steps a second</h2>\n" + growth + "</html>")


main()
