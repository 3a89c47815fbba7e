#!/usr/bin/env python3
"""Draws how many blocks receivers lose over a noisy channel.

    pictures/reach_svg.py [MEASURED] > PICTURE.svg

MEASURED is what bench/reach/measure.sh printed; without it bench/reach/measured.txt is read.  Standard library only.
"""
import argparse
import math
import os
import re

HERE = os.path.dirname(os.path.abspath(__file__))
LINE = re.compile(r"(-?[\d.]+) dB, ([\w ]+): lost ([\d.]+) %, wrong \d+ of (\d+),")
# each receiver's name, its label, and its class in the style
DRAWN = [
    ("um", "the most likely word alone", "alone"),
    ("among 4", "the first of 4 whose parity holds", "four"),
    ("among 16", "the first of 16", "sixteen"),
    ("among 64", "the first of 64", "most"),
]
OTHER = "libosmocoding"
LEFT, TOP, WIDE, HIGH = 74, 54, 640, 300
NONE = TOP + HIGH + 22
FIRST, LAST = -2.4, 1.3
STYLE = """<style>
text{fill:#1a202c}.paper{fill:#ffffff}.grid{stroke:#d2d8e0;fill:none}.faint{fill:#4a5568}path.line{fill:none;stroke-width:2.2}
.alone{stroke:#4a5568;fill:#4a5568}.four{stroke:#b7591b;fill:#b7591b}.sixteen{stroke:#2b6cb0;fill:#2b6cb0}.most{stroke:#2a7a50;fill:#2a7a50}
.hollow{fill:#ffffff}.other{fill:none;stroke:#1a202c;stroke-width:1.3}.to{stroke-dasharray:4 4}
@media (prefers-color-scheme:dark){text{fill:#e6edf3}.paper{fill:#0d1117}.grid{stroke:#30363d}.faint{fill:#9da7b3}
.alone{stroke:#b1bac4;fill:#b1bac4}.four{stroke:#f0883e;fill:#f0883e}.sixteen{stroke:#6cb0ff;fill:#6cb0ff}.most{stroke:#56d364;fill:#56d364}
.hollow{fill:#0d1117}.other{stroke:#e6edf3}}
</style>"""


def read(path):
    """The percentage lost by receiver and noise, and the number of blocks at each noise."""
    lost, blocks = {}, 0
    for line in open(path, encoding="utf-8"):
        found = LINE.match(line)
        if found:
            lost.setdefault(found[2], {})[float(found[1])] = float(found[3])
            blocks = int(found[4])
    return lost, blocks


def x_of(decibels):
    return LEFT + (decibels - FIRST) * WIDE / (LAST - FIRST)


def y_of(percent):
    """Four decades from 100 % to 0.01 %, and below them a row for zero."""
    return TOP - math.log10(percent / 100) * HIGH / 4 if percent else NONE


def row(y, label):
    """A line across the picture with its label."""
    line = f'<path class="grid" d="M{LEFT} {y:g}h{WIDE}"/>'
    return line + f'<text class="faint" x="{LEFT - 8}" y="{y + 4:g}" text-anchor="end">{label}</text>'


def axes():
    for power, label in enumerate(("100 %", "10 %", "1 %", "0.1 %", "0.01 %")):
        y = TOP + power * HIGH / 4
        yield row(y, label)
    yield row(NONE, "none")
    for decibels in (-2, -1.5, -1, -0.5, 0, 0.5, 1):
        yield f'<path class="grid" d="M{x_of(decibels):.1f} {TOP}V{NONE}"/>'
        yield f'<text class="faint" x="{x_of(decibels):.1f}" y="{NONE + 20}" text-anchor="middle">{decibels:g}</text>'
    yield (f'<text class="faint" x="{LEFT + WIDE / 2:g}" y="{NONE + 40}" text-anchor="middle">'
           'Es/N0 of a coded bit in dB: more noise to the left</text>')


def curve(points, name):
    """Lines between the measured noises, dashed down to the row for zero, and a mark at each: hollow if no block was lost."""
    lost = [point for point in points if point[1]]
    path = " ".join(f"{x_of(at):.1f} {y_of(percent):.1f}" for at, percent in lost)
    yield f'<path class="line {name}" style="fill:none" d="M{path}"/>'
    none = [point for point in points if not point[1]]
    if none:
        path = " ".join(f"{x_of(at):.1f} {y_of(percent):.1f}" for at, percent in [lost[-1], *none])
        yield f'<path class="line to {name}" style="fill:none" d="M{path}"/>'
    for at, percent in points:
        kind = name if percent else f"{name} hollow"
        yield f'<circle class="{kind}" cx="{x_of(at):.1f}" cy="{y_of(percent):.1f}" r="4" stroke-width="2"/>'


def key(other):
    x, y = LEFT + 20, TOP + 166
    for row, (_, words, name) in enumerate(DRAWN):
        at = y + 20 * row
        yield f'<path class="line {name}" d="M{x} {at}h26"/><circle class="{name}" cx="{x + 13}" cy="{at}" r="4"/>'
        yield f'<text x="{x + 36}" y="{at + 4}">{words}</text>'
    if other:
        at = y + 20 * len(DRAWN)
        yield f'<rect class="other" x="{x + 7}" y="{at - 6}" width="12" height="12"/>'
        yield f'<text x="{x + 36}" y="{at + 4}">{OTHER}</text>'


def main():
    asked = argparse.ArgumentParser(description="Draws how many blocks receivers lose over a noisy channel.")
    asked.add_argument("measured", nargs="?", default=os.path.join(HERE, "..", "bench", "reach", "measured.txt"))
    lost, blocks = read(asked.parse_args().measured)
    out = [f'<text x="{LEFT}" y="26" font-size="15">Blocks lost, of {blocks:,} at each noise</text>', *axes()]
    for receiver, _, name in DRAWN:
        out += curve(sorted(lost[receiver].items()), name)
    for at, percent in lost.get(OTHER, {}).items():
        out.append(f'<rect class="other" x="{x_of(at) - 7:.1f}" y="{y_of(percent) - 7:.1f}" width="14" height="14"/>')
    paper = f'<rect class="paper" x="{LEFT + 6}" y="{TOP + 154}" width="240" height="{20 * len(DRAWN) + 24}"/>'
    out += [paper, *key(OTHER in lost)]
    wide, high = LEFT + WIDE + 26, NONE + 56
    print(f'<svg xmlns="http://www.w3.org/2000/svg" width="{wide}" height="{high}" viewBox="0 0 {wide} {high}" '
          'font-family="DejaVu Sans, Verdana, sans-serif" font-size="12">', STYLE,
          f'<rect class="paper" width="{wide}" height="{high}"/>', *out, "</svg>", sep="\n")


if __name__ == "__main__":
    main()
