#!/usr/bin/env python3
"""Draws the table "Beside libbson" of bench/README.md, as bench/libbson.py writes it, as bars: bench/libbson.svg.

    bench/plot.py            draws it anew
    bench/plot.py --check    checks that the plot is that of the current table: status 1 if not

Of each kind of input the smaller one is drawn, with the seconds of both programs and the peaks of their memory.
"""
import os
import re
import sys
from html import escape

HERE = os.path.dirname(os.path.realpath(__file__))
PICTURE = f"{HERE}/libbson.svg"
PROGRAMS = (("bson_cli", "#2563a8"), ("libbson", "#b9b2a6"))
LABELS, BARS, GAP, ROW, TOP = 230, 250, 60, 34, 74


def table():
    """The line on date and machine, and of each kind of input its name, megabytes, both times and both peaks."""
    with open(f"{HERE}/README.md", encoding="utf-8") as text:
        section = text.read().partition("\n## Beside libbson\n")[2].partition("\n## ")[0]
    about = section.strip().partition("\n")[0]
    rows = {}
    for line in section.splitlines():
        cells = [it.strip() for it in line.strip("|").split("|")]
        if len(cells) == 7 and re.fullmatch(r"[\d.]+", cells[1]):
            rows.setdefault(cells[0], (cells[1], [float(cells[2]), float(cells[4])], [float(cells[3]), float(cells[5])]))
    return about, rows


def text(x, y, words, size=13, anchor="start", color="#333333", weight="normal"):
    style = f'font-size="{size}" text-anchor="{anchor}" fill="{color}" font-weight="{weight}"'
    return f'<text x="{x}" y="{y}" {style}>{escape(words)}</text>'


def panel(left, title, values, shown):
    """Two bars a row, each followed by its number."""
    greatest = max(max(pair) for pair in values)
    drawn = [text(left, TOP - 14, title, weight="bold")]
    for at, pair in enumerate(values):
        for of, value in enumerate(pair):
            y, width = TOP + at * ROW + of * 13, max(1.0, BARS * value / greatest)
            drawn.append(f'<rect x="{left}" y="{y}" width="{width:.1f}" height="11" fill="{PROGRAMS[of][1]}"/>')
            drawn.append(text(round(left + width + 5, 1), y + 10, shown.format(value), size=11, color="#555555"))
    return drawn


def picture():
    about, rows = table()
    width, height = LABELS + 2 * (BARS + GAP), TOP + len(rows) * ROW + 34
    drawn = [
        f'<svg xmlns="http://www.w3.org/2000/svg" width="{width}" height="{height}" viewBox="0 0 {width} {height}"'
        ' font-family="Helvetica, Arial, sans-serif">',
        f"<title>{escape(about)}</title>",
        f'<rect width="{width}" height="{height}" fill="#ffffff"/>',
        text(16, 28, "Extended JSON to its canonical form: ./bson beside MongoDB's libbson", size=16, weight="bold"),
    ]
    for of, (name, color) in enumerate(PROGRAMS):
        drawn.append(f'<rect x="{16 + of * 95}" y="{TOP - 25}" width="11" height="11" fill="{color}"/>')
        drawn.append(text(32 + of * 95, TOP - 15, name))
    for at, (name, (size, _, _)) in enumerate(rows.items()):
        drawn.append(text(LABELS - 12, TOP + at * ROW + 17, name, size=12, anchor="end"))
    sizes = sorted({float(size) for size, _, _ in rows.values()})
    drawn += panel(LABELS, f"seconds, for {sizes[0]:g} MB", [times for _, times, _ in rows.values()], "{:.2f}")
    drawn += panel(LABELS + BARS + GAP, "peak memory, MB", [peaks for _, _, peaks in rows.values()], "{:.0f}")
    drawn.append(text(16, height - 12, about.partition(";")[0], size=11, color="#777777"))
    return "\n".join([*drawn, "</svg>", ""])


def main():
    if sys.argv[1:] == ["--check"]:
        with open(PICTURE, encoding="utf-8") as it:
            return int(it.read() != picture())
    with open(PICTURE, "w", encoding="utf-8") as it:
        it.write(picture())
    return 0


if __name__ == "__main__":
    sys.exit(main())
