#!/usr/bin/env python3
"""Draws docs/crates.svg: the crates of crates.txt, each above those that it uses. A use that other lines imply has no line."""
import collections
import graphlib
import pathlib
import re

ROOT = pathlib.Path(__file__).resolve().parent.parent
PICTURE = ROOT / "docs/crates.svg"
WIDTH, BOX, HEIGHT, ROW, MARGIN = 940, 152, 34, 74, 20
TITLE = "The crates of Hole, each above those that it uses"
HEAD = """<svg xmlns="http://www.w3.org/2000/svg" viewBox="0 0 {} {}" role="img" aria-label="{}">
<style>
text {{ font: 13px sans-serif; fill: #1a1a1a; text-anchor: middle }}
rect {{ fill: #eef2f6; stroke: #55708a; rx: 5 }}
path {{ fill: none; stroke: #808080; stroke-width: 1.2 }}
marker path {{ fill: #808080; stroke: none }}
</style>
<defs><marker id="end" viewBox="0 0 8 8" refX="7" refY="4" markerWidth="7" markerHeight="7" orient="auto"><path d="M0 0 8 4 0 8z"/></marker></defs>"""


def uses():
    """The row of each crate of the product, from 0 for the lowest, and the uses of each that other uses don't imply."""
    lines = re.findall(r"(?m)^(\w+)[^:\n]*:(.*)$", (ROOT / "crates.txt").read_text())
    named = {crate: used.split() for crate, used in lines if not crate.startswith(("test_", "example_"))}
    rows, below, drawn = {}, {}, {}
    for crate in graphlib.TopologicalSorter(named).static_order():
        if crate in named:
            used = [one for one in named[crate] if one in named]
            rows[crate] = 1 + max(map(rows.get, used), default=-1)
            below[crate] = {*used}.union(*map(below.get, used))
            drawn[crate] = [one for one in used if not any(one in below[other] for other in used)]
    return rows, drawn


def placed(lines, count):
    """Where each point of these lines is in its row: near what it is tied to in the rows beside."""
    near, at = collections.defaultdict(set), {}
    for line in lines:
        for upper, lower in zip(line, line[1:]):
            near[upper].add(lower)
            near[lower].add(upper)
    width = lambda point: BOX + 26 if len(point) == 2 else 34
    middle = lambda point: sum(at.get(one, WIDTH / 2) for one in near[point]) / len(near[point])
    for sweep in range(40):
        for row in range(count) if sweep % 2 else reversed(range(count)):
            points = sorted((point for point in near if point[0] == row), key=lambda point: (middle(point), point))
            x = (WIDTH - sum(map(width, points))) / 2
            for point in points:
                at[point], x = x + width(point) / 2, x + width(point)
    return at


def arrow(points):
    """An arrow through these points, which leaves and arrives straight."""
    path = f"M{points[0][0]:g} {points[0][1]:g}"
    for (x, y), (to_x, to_y) in zip(points, points[1:]):
        path += f"C{x:g} {(y + to_y) / 2:g} {to_x:g} {(y + to_y) / 2:g} {to_x:g} {to_y:g}"
    return f'<path d="{path}" marker-end="url(#end)"/>'


def picture():
    """The text of the picture. A line has a point in each row that it passes."""
    rows, drawn = uses()
    lines = []
    for crate, used in drawn.items():
        for one in used:
            passed = ((row, crate, one) for row in range(rows[crate] - 1, rows[one], -1))
            lines.append([(rows[crate], crate), *passed, (rows[one], one)])
    top = lambda row: MARGIN + ROW * (max(rows.values()) - row)
    at, parts = placed(lines, 1 + max(rows.values())), [HEAD.format(WIDTH, top(0) + HEIGHT + MARGIN, TITLE)]
    for first, *passed, last in lines:
        points = [(at[point], y) for point in passed for y in (top(point[0]), top(point[0]) + HEIGHT)]
        parts.append(arrow([(at[first], top(first[0]) + HEIGHT), *points, (at[last], top(last[0]) - 1)]))
    for crate, row in rows.items():
        x = at[row, crate]
        parts.append(f'<rect x="{x - BOX / 2:g}" y="{top(row)}" width="{BOX}" height="{HEIGHT}"/><text x="{x:g}" y="{top(row) + 21}">{crate}</text>')
    return "\n".join([*parts, "</svg>"]) + "\n"


if __name__ == "__main__":
    PICTURE.write_text(picture())
