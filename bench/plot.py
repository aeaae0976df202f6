#!/usr/bin/env python3
"""Draws tables of bench/README.md as SVG, into docs/pictures/.

usage: plot.py [FOLDER]

jq.svg has the time by size of the table under "Beside jq", one line for each of its programs, and growth.svg the
table under "How time grows with the text", one line for each kind of text. Both have logarithmic axes, so that a time
in proportion to the text is a line of slope one; such a line is dashed from the first point of each. The figures are
read from the page, and stand there alone.
"""
import os
import re
import sys
from html import escape
from math import ceil, floor, log10
from pathlib import Path

ROOT = Path(__file__).resolve().parent.parent
SIZES = {"bytes": 1, "KB": 1e3, "MB": 1e6, "GB": 1e9}
TIMES = {"µs": 1e-6, "ms": 1e-3, "s": 1.0, "min": 60.0}
FACTORS = {"two": 2, "four": 4, "eight": 8, "ten": 10, "sixteen": 16}
COLOURS = """#2f6db3 #d9822b #3d8b4f #a8473f #7a5bab #8a6d3b #c0518d #5f6b73 #a39a1f #2a9d9d #1f3f6b #d0402b""".split()
LEFT, TOP, WIDTH, HEIGHT = 70, 52, 430, 330  # where the axes lie, in pixels


def quantity(cell, units):
    """The quantity that a cell begins with, as a number of the smallest unit; None if it has none."""
    found = re.search(r"([\d.,]+)\s*(" + "|".join(units) + r")\b", cell)
    return float(found[1].replace(",", "")) * units[found[2]] if found else None


def tables_under(page, heading):
    """The tables between a heading and the next one, each a list of rows of cells."""
    tables, inside, inside_table = [], False, False
    for line in page.splitlines():
        if line.startswith("#"):
            inside = heading.lower() in line.lower()
        is_row = inside and line.startswith("|")
        if is_row:
            if not inside_table:
                tables.append([])
            cells = [cell.strip().strip("*`") for cell in line.strip().strip("|").split("|")]
            if not all(re.fullmatch(r":?-+:?", cell) for cell in cells):
                tables[-1].append(cells)
        inside_table = is_row
    return tables


def by_program(table):
    """The points of each column of times, by the name above it; a column without a name belongs to the one before."""
    series, sizes = {}, next(i for i, cell in enumerate(table[1]) if quantity(cell, SIZES))
    for column in range(len(table[0])):
        name = next((table[0][i] for i in range(column, -1, -1) if table[0][i]), "")
        points = [(quantity(row[sizes], SIZES), quantity(row[column], TIMES)) for row in table[1:]]
        if column != sizes and name not in series and any(time for _, time in points):
            series[name] = [(size, time) for size, time in points if size and time]
    return series


def by_kind(table):
    """The points of each row: its times are those of its text, and of texts so many times as long."""
    series = {}
    sizes = next(i for i, cell in enumerate(table[1]) if quantity(cell, SIZES))
    times = [i for i, cell in enumerate(table[1]) if quantity(cell, TIMES)]
    for row in table[1:]:
        points = []
        for place, column in enumerate(times):
            word = re.search(r"(\w+) times", table[0][column])
            factor = FACTORS.get(word[1].lower()) if word else None
            points.append((quantity(row[sizes], SIZES) * (factor or 4**place), quantity(row[column], TIMES)))
        series[row[0]] = [(size, time) for size, time in points if time]
    return series


def label(value, units):
    """A power of ten in its largest fitting unit."""
    unit = [it for it in units if units[it] <= value * 1.001][-1]
    return f"{value / units[unit]:g} {unit}"


def spread(places, least):
    """Places as near to the given ones as they can be with a least distance between neighbours."""
    order, out = sorted(range(len(places)), key=lambda i: places[i]), list(places)
    for _ in range(400):
        for low, high in zip(order, order[1:]):
            lack = least - (out[high] - out[low])
            if lack > 0:
                out[low] -= lack / 2
                out[high] += lack / 2
    return out


def chart(title, series):
    """The lines of a chart of series of points, both axes logarithmic, named at their right ends."""
    every = [point for points in series.values() for point in points]
    xs = [log10(size) for size, _ in every]
    ys = [log10(time) for _, time in every]
    x0, x1, y0, y1 = min(xs) - 0.15, max(xs) + 0.15, min(ys) - 0.2, max(ys) + 0.2

    def at(size, time):
        across = (log10(size) - x0) / (x1 - x0) * WIDTH
        above = (log10(time) - y0) / (y1 - y0) * HEIGHT
        return LEFT + across, TOP + HEIGHT - above

    width = LEFT + WIDTH + 60 + round(6.9 * max(len(name) for name in series))
    height = TOP + HEIGHT + 52
    lines = [
        f'<svg xmlns="http://www.w3.org/2000/svg" viewBox="0 0 {width} {height}" width="{width}" height="{height}">',
        "<style>text { font: 12px 'DejaVu Sans', Verdana, sans-serif; fill: #333 }",
        ".title { font-size: 15px; font-weight: 600 } path { fill: none } .grid { stroke: #ddd8cc }",
        ".one { stroke-dasharray: 5 3 } .line { stroke-width: 2px } .leader { stroke: #bbb }</style>",
        f'<rect width="{width}" height="{height}" rx="8" fill="#fbfaf7"/>',
        f'<text class="title" x="{LEFT}" y="28">{escape(title)}</text>',
    ]
    for power in range(ceil(x0), floor(x1) + 1):
        x, _ = at(10**power, 10**y0)
        lines.append(f'<path class="grid" d="M{x:.1f} {TOP}v{HEIGHT}"/>')
        lines.append(f'<text x="{x:.1f}" y="{TOP + HEIGHT + 18}" text-anchor="middle">{label(10**power, SIZES)}</text>')
    for power in range(ceil(y0), floor(y1) + 1):
        _, y = at(10**x0, 10**power)
        lines.append(f'<path class="grid" d="M{LEFT} {y:.1f}h{WIDTH}"/>')
        lines.append(f'<text x="{LEFT - 8}" y="{y + 4:.1f}" text-anchor="end">{label(10**power, TIMES)}</text>')
    lines.append(f'<path class="grid" d="M{LEFT} {TOP}v{HEIGHT}h{WIDTH}v{-HEIGHT}z"/>')
    middle, foot = LEFT + WIDTH / 2, TOP + HEIGHT + 40
    lines.append(f'<text x="{middle}" y="{foot}" text-anchor="middle">length of the text (dashed: slope one)</text>')

    tips, right = [at(*max(points)) for points in series.values()], LEFT + WIDTH
    drawn = zip(series.items(), COLOURS * 9, tips, spread([y for _, y in tips], 16))
    for (name, points), colour, (x, y), line in drawn:
        (size, time), last = min(points), max(points)[0]
        one = [at(size, time), at(last, time * last / size)]
        ends = "L".join(f"{x:.1f} {y:.1f}" for x, y in one)
        lines.append(f'<path class="one" stroke="{colour}" d="M{ends}"/>')
        places = [at(*point) for point in sorted(points)]
        shape = "L".join(f"{x:.1f} {y:.1f}" for x, y in places)
        lines.append(f'<path class="line" stroke="{colour}" d="M{shape}"/>')
        lines += [f'<circle cx="{x:.1f}" cy="{y:.1f}" r="3.2" fill="{colour}"/>' for x, y in places]
        lines.append(f'<path class="leader" d="M{x + 5:.1f} {y:.1f}L{right + 8} {line:.1f}h6"/>')
        lines.append(f'<text x="{right + 18}" y="{line + 4:.1f}" style="fill:{colour}">{escape(name)}</text>')
    return "\n".join([*lines, "</svg>", ""])


def main():
    folder = Path(sys.argv[1]) if len(sys.argv) > 1 else ROOT / "docs" / "pictures"
    page = (ROOT / "bench" / "README.md").read_text(encoding="utf-8")
    for file, heading, title, points_of in (
        ("jq.svg", "Beside jq", "Processor time beside jq and a plain reader", by_program),
        ("growth.svg", "How time grows", "Processor time as the text grows", by_kind),
    ):
        tables = [it for it in tables_under(page, heading) if any(quantity(cell, TIMES) for cell in it[1])]
        if not tables:
            sys.exit(f'plot.py: bench/README.md has no table of times under "{heading}"')
        folder.mkdir(parents=True, exist_ok=True)
        (folder / file).write_text(chart(title, points_of(tables[0])), encoding="utf-8")
        print(os.path.relpath(folder / file))


main()
