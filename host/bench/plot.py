#!/usr/bin/env python3
"""Draws the benchmark's results: plot.py RESULTS OUT.svg

Left, how many times the plain C's time the library takes, for each operation and card. Right, what a tally and a move in
cost with more and more entries in use.
"""
import csv
import math
import sys
from xml.sax.saxutils import escape

WIDTH = 1180
ROW = 19
TOP = 78
LEFT_LABELS = 235
LEFT_WIDTH = 380
RIGHT_START = 715
RIGHT_WIDTH = 420
PANEL = 300
INK, FAINT, GRID = "#222222", "#666666", "#dddddd"
CARDS = {"empty": "#4477aa", "copies of one title": "#ee7733", "different titles": "#228833"}
OTHER = "#888888"
PROVED, PLAIN = "#aa3377", "#4477aa"


def text(x, y, words, size=12, anchor="start", color=INK, weight="normal", turn=None):
    rotate = f' transform="rotate({turn} {x} {y})"' if turn is not None else ""
    return (
        f'<text x="{x:.1f}" y="{y:.1f}" font-size="{size}" text-anchor="{anchor}" fill="{color}" '
        f'font-weight="{weight}"{rotate}>{escape(words)}</text>'
    )


def line(x1, y1, x2, y2, color, width=1, dash=None):
    dashes = f' stroke-dasharray="{dash}"' if dash else ""
    return f'<line x1="{x1:.1f}" y1="{y1:.1f}" x2="{x2:.1f}" y2="{y2:.1f}" stroke="{color}" stroke-width="{width}"{dashes}/>'


def circle(x, y, color, radius=4.5):
    return f'<circle cx="{x:.1f}" cy="{y:.1f}" r="{radius}" fill="{color}"/>'


def steps(top, wanted):
    """Round numbers from 0 to at least `top`, about as many as wanted."""
    raw = top / wanted
    size = 10 ** math.floor(math.log10(raw))
    step = next(size * f for f in (1, 2, 5, 10) if size * f >= raw)
    return [i * step for i in range(math.ceil(top / step) + 1)]


def ratios(rows):
    """The left side: a dot for each operation and card."""
    top = max(max(r["ratio"] for r in rows), 1)
    marks = steps(top * 1.02, 6)

    def across(ratio):
        return LEFT_LABELS + LEFT_WIDTH * ratio / marks[-1]

    bottom = TOP + ROW * len(rows)
    out = [text(LEFT_LABELS, 30, "Time of the proved library / time of plain C", 15, weight="bold")]
    for mark in marks:
        out.append(line(across(mark), TOP - 6, across(mark), bottom, GRID))
        out.append(text(across(mark), bottom + 18, f"{mark:g}", 12, "middle"))
    out.append(text(LEFT_LABELS + LEFT_WIDTH / 2, bottom + 40, "ratio of medians (less is better)", 12, "middle", FAINT))
    out.append(line(across(1), TOP - 6, across(1), bottom, INK, 1.5, "5 3"))
    for x, (name, color) in zip((8, 88, 238), CARDS.items()):
        out.append(circle(LEFT_LABELS + x, 52, color))
        out.append(text(LEFT_LABELS + x + 9, 56, name, 12))
    for i, r in enumerate(rows):
        y = TOP + ROW * (i + 0.5)
        color = CARDS.get(r["card"], OTHER)
        name = r["operation"] if r["card"] in CARDS or r["card"] == "-" else f'{r["operation"]}: {r["card"]}'
        out.append(text(LEFT_LABELS - 12, y + 4, name, 12, "end"))
        out.append(line(across(0), y, across(r["ratio"]), y, color, 1.5))
        out.append(circle(across(r["ratio"]), y, color))
        out.append(text(across(r["ratio"]) + 9, y + 4, f'{r["ratio"]:.2f}', 11, color=FAINT))
    return out, bottom + 50


def growth(rows, operation, start):
    """One panel on the right: both libraries and both cards against the entries in use."""
    rows = [r for r in rows if r["operation"] == operation]
    marks = steps(max(max(r["proved_ns"], r["plain_ns"]) for r in rows) * 1.05, 5)

    def place(in_use, ns):
        return RIGHT_START + RIGHT_WIDTH * in_use / 1000, start + PANEL - PANEL * ns / marks[-1]

    out = [text(RIGHT_START, start - 14, f"{operation.capitalize()}: time against entries in use", 15, weight="bold")]
    for mark in marks:
        x, y = place(0, mark)
        out += [line(x, y, x + RIGHT_WIDTH, y, GRID), text(x - 8, y + 4, f"{mark:,.0f}", 12, "end")]
    for in_use in range(0, 1001, 200):
        x, y = place(in_use, 0)
        out += [line(x, y, x, y + 5, INK), text(x, y + 20, f"{in_use}", 12, "middle")]
    out.append(text(RIGHT_START + RIGHT_WIDTH / 2, start + PANEL + 40, "entries in use", 12, "middle", FAINT))
    out.append(text(RIGHT_START - 58, start + PANEL / 2, "ns per call", 12, "middle", FAINT, turn=-90))
    for card, dash in (("copies of one title", None), ("different titles", "6 4")):
        for column, color in (("proved_ns", PROVED), ("plain_ns", PLAIN)):
            at = [place(r["in_use"], r[column]) for r in sorted(rows, key=lambda r: r["in_use"]) if r["card"] == card]
            points = " ".join(f"{x:.1f},{y:.1f}" for x, y in at)
            dashes = f' stroke-dasharray="{dash}"' if dash else ""
            out.append(f'<polyline points="{points}" fill="none" stroke="{color}" stroke-width="2"{dashes}/>')
    return out


def legend(y):
    out = []
    for i, (name, color) in enumerate((("proved", PROVED), ("plain C", PLAIN))):
        out += [line(RIGHT_START + 90 * i, y, RIGHT_START + 26 + 90 * i, y, color, 3)]
        out += [text(RIGHT_START + 32 + 90 * i, y + 4, name, 12)]
    for i, (name, dash) in enumerate((("copies of one title", None), ("different titles", "6 4"))):
        x = RIGHT_START + 180 + 160 * i
        out += [line(x, y, x + 26, y, INK, 2, dash), text(x + 32, y + 4, name, 12)]
    return out


def main():
    with open(sys.argv[1], newline="") as file:
        rows = list(csv.DictReader(file, delimiter="\t"))
    for r in rows:
        r["in_use"] = int(r["in_use"])
        for column in ("proved_ns", "plain_ns", "ratio"):
            r[column] = float(r[column])
    operations = [r for r in rows if r["section"] == "operation"]
    grown = [r for r in rows if r["section"] == "growth"]
    left, bottom = ratios(operations)
    panels = growth(grown, "tally", TOP + 20) + growth(grown, "move in", TOP + 20 + PANEL + 90)
    height = max(bottom, TOP + 2 * PANEL + 170)
    body = "\n".join(left + legend(36) + panels)
    with open(sys.argv[2], "w") as file:
        file.write(
            f'<svg xmlns="http://www.w3.org/2000/svg" width="{WIDTH}" height="{height:.0f}" '
            f'viewBox="0 0 {WIDTH} {height:.0f}" font-family="DejaVu Sans, Helvetica, Arial, sans-serif">\n'
            f'<rect width="100%" height="100%" fill="white"/>\n{body}\n</svg>\n'
        )


if __name__ == "__main__":
    if len(sys.argv) != 3:
        sys.exit(__doc__)
    main()
