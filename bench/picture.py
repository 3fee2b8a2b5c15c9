"""Draws the table of bench/growth, which it reads, as an SVG picture: a panel for each kind of rows,
with how many there are, doubled from mark to mark, to the right, and the million steps a second up."""

import math
import sys

WIDTH, HEIGHT = 280, 200
LEFT, TOP, BETWEEN = 60, 50, 50
TITLES = {
    "processes": "processes",
    "operations": "operations, in memory",
    "blocks": "blocks of the image",
}


def rows():
    """The rows of each kind, as pairs of how many there are and how many steps a second."""
    kinds = {}
    for line in sys.stdin:
        kind, many, _steps, rate = (field.strip() for field in line.strip().strip("|").split("|"))
        kinds.setdefault(kind, []).append((int(many), float(rate)))
    return kinds


def mark_step(most):
    """How far the marks of the upward axis are apart: 1, 2 or 5 times a power of ten."""
    power = 10 ** math.floor(math.log10(most / 4))
    return next(power * k for k in (1, 2, 5, 10) if most <= power * k * 5)


def text(x, y, words, anchor="middle"):
    return f'<text x="{x:.1f}" y="{y:.1f}" text-anchor="{anchor}">{words}</text>'


def panel(left, title, points, top, step):
    """One kind's panel: its frame, the marks of both axes, and its points with their line."""
    first, last = math.log(points[0][0]), math.log(points[-1][0])
    across = [left + WIDTH * (math.log(many) - first) / (last - first) for many, _ in points]
    up = [TOP + HEIGHT * (1 - rate / top) for _, rate in points]
    lines = [text(left + WIDTH / 2, TOP + HEIGHT + 40, title)]
    for k in range(round(top / step) + 1):
        y = TOP + HEIGHT * (1 - k * step / top)
        lines.append(f'<path class="mark" d="M{left} {y:.1f}h{WIDTH}"/>')
        lines.append(text(left - 8, y + 4, f"{k * step:g}", "end"))
    for x, (many, _rate) in zip(across, points):
        lines.append(f'<path d="M{x:.1f} {TOP + HEIGHT}v4"/>')
        lines.append(text(x, TOP + HEIGHT + 18, f"{many:,}"))
    way = " ".join(f"{x:.1f},{y:.1f}" for x, y in zip(across, up))
    lines.append(f'<polyline points="{way}"/>')
    lines += [f'<circle cx="{x:.1f}" cy="{y:.1f}" r="3"/>' for x, y in zip(across, up)]
    return lines


def main():
    kinds = rows()
    most = max(rate for points in kinds.values() for _, rate in points)
    step = mark_step(most)
    top = step * math.ceil(most / step)
    width = LEFT + len(kinds) * (WIDTH + BETWEEN)
    lines = [
        f'<svg xmlns="http://www.w3.org/2000/svg" width="{width}" height="{TOP + HEIGHT + 60}"'
        f' viewBox="0 0 {width} {TOP + HEIGHT + 60}" font-family="sans-serif" font-size="12">',
        "<style>path, polyline { fill: none; stroke: black } .mark { stroke: #ccc }</style>",
        '<rect width="100%" height="100%" fill="white"/>',
        text(LEFT - 40, 24, "Million steps a second", "start"),
    ]
    for k, (kind, points) in enumerate(kinds.items()):
        lines += panel(LEFT + k * (WIDTH + BETWEEN), TITLES[kind], points, top, step)
    print("\n".join(lines + ["</svg>"]))


main()
