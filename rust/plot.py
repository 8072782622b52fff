#!/usr/bin/env python3
"""Draws the figures of the bench as one SVG: time against width, and time against page bits, of the calls with a page.

    python3 rust/plot.py FIGURES.csv PLOT.svg

All axes are logarithmic; a bar at a point goes from the 10th to the 90th percentile. The archive is drawn through, the
reference dashed, the CRC dotted. Each call has a mark of its own, and the archive's write a wide line, since judge's may
lie upon it. Names stand at the lines' ends.
"""
import csv
import math
import sys
from xml.sax.saxutils import escape

COLOURS = ["#1b6ca8", "#c8553d", "#3a7d44", "#7b4fa3", "#8a6d1d", "#0f8b8d", "#b0305c", "#5b6770"]
MARKS = ["ring", "triangle", "dot", "square", "diamond", "wedge", "bar", "post"]
WIDTH, HEIGHT, LEFT, RIGHT, TOP, BOTTOM, NAMES, GAP = 970, 400, 80, 610, 40, 60, 650, 16


class Axis:
    def __init__(self, values, low, high):
        self.first, self.last = math.log10(min(values)), math.log10(max(values))
        pad = 0.05 * max(self.last - self.first, 0.3)
        self.first, self.last = self.first - pad, self.last + pad
        self.low, self.high = low, high

    def place(self, value):
        return self.low + (math.log10(value) - self.first) / (self.last - self.first) * (self.high - self.low)


class Line:
    def __init__(self, name, colour, points, mark="dot", dash="", wide=False):
        self.name, self.colour, self.points, self.mark, self.dash, self.wide = name, colour, sorted(points), mark, dash, wide


def time_text(ns):
    for unit, size in (("ms", 1e6), ("µs", 1e3)):
        if ns >= size:
            return f"{ns / size:g} {unit}"
    return f"{ns:g} ns"


def text(x, y, words, anchor="middle", size=12, colour="black", style=""):
    return f'<text x="{x:.1f}" y="{y:.1f}" text-anchor="{anchor}" font-size="{size}" fill="{colour}"{style}>{escape(words)}</text>'


def mark(shape, x, y, colour):
    if shape == "ring":
        return f'<circle cx="{x:.1f}" cy="{y:.1f}" r="6" fill="none" stroke="{colour}" stroke-width="1.6"/>'
    if shape == "dot":
        return f'<circle cx="{x:.1f}" cy="{y:.1f}" r="2.8" fill="{colour}"/>'
    corners = {"triangle": [(0, -5), (4.5, 3.5), (-4.5, 3.5)], "square": [(-3.5, -3.5), (3.5, -3.5), (3.5, 3.5), (-3.5, 3.5)], "diamond": [(0, -5), (5, 0), (0, 5), (-5, 0)], "wedge": [(0, 5), (4.5, -3.5), (-4.5, -3.5)], "bar": [(-5, -1.5), (5, -1.5), (5, 1.5), (-5, 1.5)], "post": [(-1.5, -5), (1.5, -5), (1.5, 5), (-1.5, 5)]}
    points = " ".join(f"{x + dx:.1f},{y + dy:.1f}" for dx, dy in corners[shape])
    return f'<polygon points="{points}" fill="white" stroke="{colour}" stroke-width="1.6"/>'


def apart(places, low, high):
    """The places, moved as little as need be to stand GAP apart between low and high; in their order."""
    order = sorted(range(len(places)), key=lambda k: places[k])
    out = list(places)
    for before, k in zip([None] + order, order):
        out[k] = max(out[k], low if before is None else out[before] + GAP)
    for after, k in zip([None] + order[::-1], order[::-1]):
        out[k] = min(out[k], high if after is None else out[after] - GAP)
    return out


def panel(top, title, x_title, lines, crc, crc_name):
    """A point of a line is x, median, low, high. crc_name: where the CRC's name stands at its line, x, how far below, anchor."""
    points = [point for line in lines for point in line.points]
    x = Axis([p[0] for p in points], LEFT, RIGHT)
    y = Axis([p[2] for p in points] + [p[3] for p in points] + crc, top + HEIGHT - BOTTOM, top + TOP)
    out = [text((LEFT + RIGHT) / 2, top + 24, title, size=15)]
    out.append(f'<rect x="{LEFT}" y="{top + TOP}" width="{RIGHT - LEFT}" height="{HEIGHT - BOTTOM - TOP}" fill="none" stroke="#888"/>')
    for power in range(math.ceil(y.first), math.floor(y.last) + 1):
        at = y.place(10**power)
        out.append(f'<line x1="{LEFT}" x2="{RIGHT}" y1="{at:.1f}" y2="{at:.1f}" stroke="#ddd"/>')
        out.append(text(LEFT - 6, at + 4, time_text(10**power), "end"))
    last = -math.inf
    for value in sorted({p[0] for p in points}):
        at = x.place(value)
        out.append(f'<line x1="{at:.1f}" x2="{at:.1f}" y1="{y.low}" y2="{y.low + 5}" stroke="#888"/>')
        # A number that would touch the one before it stands lower.
        touches = at - last < 50
        out.append(text(at, y.low + (30 if touches else 19), f"{value:,.0f}"))
        last = -math.inf if touches else at
    out.append(text((LEFT + RIGHT) / 2, y.low + 46, x_title))
    ends = [(y.place(line.points[-1][1]), x.place(line.points[-1][0]), line.name, line.colour) for line in lines]
    for time in crc:
        at = y.place(time)
        out.append(f'<line x1="{LEFT}" x2="{RIGHT}" y1="{at:.1f}" y2="{at:.1f}" stroke="#444" stroke-width="1.4" stroke-dasharray="1.5 3"/>')
        out.append(text(crc_name[0], at + crc_name[1], "CRC-32 of 4,096 bytes", crc_name[2], colour="#444", style=' stroke="white" stroke-width="4" paint-order="stroke"'))
    for line in sorted(lines, key=lambda line: not line.wide):
        dash = f' stroke-dasharray="{line.dash}"' if line.dash else ""
        look = 'stroke-width="5" stroke-opacity="0.35"' if line.wide else 'stroke-width="1.6"'
        path = " ".join(f"{x.place(p[0]):.1f},{y.place(p[1]):.1f}" for p in line.points)
        out.append(f'<polyline points="{path}" fill="none" stroke="{line.colour}" {look}{dash}/>')
        for at, median, low, high in line.points:
            px = x.place(at)
            out.append(f'<line x1="{px:.1f}" x2="{px:.1f}" y1="{y.place(low):.1f}" y2="{y.place(high):.1f}" stroke="{line.colour}"/>')
            out.append(mark(line.mark, px, y.place(median), line.colour))
    for (at, from_x, name, colour), label in zip(ends, apart([end[0] for end in ends], y.high + 8, y.low - 4)):
        out.append(f'<path d="M {from_x + 7:.1f} {at:.1f} L {RIGHT + 8} {at:.1f} L {NAMES - 6} {label:.1f}" fill="none" stroke="{colour}" stroke-width="0.8"/>')
        out.append(text(NAMES, label + 4, name, "start", colour=colour))
    return out


def main():
    if len(sys.argv) != 3:
        sys.exit(__doc__)
    with open(sys.argv[1], newline="", encoding="utf-8") as file:
        every = list(csv.DictReader(file))
    # Of the altered bits those that take longest, of the mended sub-words those with most flips, no mended pages; sheets with all calls.
    kinds = {"alter": "block m - 1", "mend": "mend t0 flips"}
    written = {row["sheet"] for row in every if row["call"] == "write"}
    rows = [row for row in every if row["sheet"] in written and int(row["bytes"]) and all(row["call"].endswith(end) for kind, end in kinds.items() if row["call"].startswith(kind))]
    crc = [float(row["median_ns"]) for row in every if row["call"] == "CRC-32"]

    def point(row, x):
        return (float(row[x]), float(row["median_ns"]), float(row["low_ns"]), float(row["high_ns"]))

    def lines(keys, matches, x, look):
        found = []
        for place, key in enumerate(keys):
            for side, dash in (("archive", ""), ("reference", "6 4")):
                points = [point(row, x) for row in rows if row["side"] == side and matches(row, key)]
                found.append(Line(f"{key}, {side}", COLOURS[place % len(COLOURS)], points, dash=dash, **look(place, key, side)))
        return found

    sheets = list(dict.fromkeys(row["sheet"] for row in rows))
    calls = list(dict.fromkeys(row["call"] for row in rows))
    by_width = lines(sheets, lambda row, sheet: row["sheet"] == sheet and row["call"] == "write", "width", lambda place, key, side: {})
    by_bits = lines(calls, lambda row, call: row["call"] == call and row["width"] in ("", "64"), "bits",
                    lambda place, key, side: {"mark": MARKS[place % len(MARKS)], "wide": (key, side) == ("write", "archive")})

    out = [f'<svg xmlns="http://www.w3.org/2000/svg" viewBox="0 0 {WIDTH} {2 * HEIGHT}" width="{WIDTH}" height="{2 * HEIGHT}" font-family="DejaVu Sans, Verdana, sans-serif">']
    out.append('<rect width="100%" height="100%" fill="white"/>')
    out += panel(0, "Write: time of a call against width", "coefficients a step", by_width, crc, (RIGHT - 8, 14, "end"))
    out += panel(HEIGHT, "Time of a call against the page's bits (write at width 64)", "bits of the page", by_bits, crc, (LEFT + 8, -6, "start"))
    out.append("</svg>")
    with open(sys.argv[2], "w", encoding="utf-8") as file:
        file.write("\n".join(out) + "\n")


main()
