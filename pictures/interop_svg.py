#!/usr/bin/env python3
"""Draws the share of sessions that succeed against the share of blocks lost, for um and libosmogsm with each other and with themselves.

    pictures/interop_svg.py [MEASURED] > PICTURE.svg

MEASURED is what bench/interop/measure.sh printed; without it bench/interop/measured.txt is read.  Standard library only.
"""
import argparse
import os
import re

HERE = os.path.dirname(os.path.abspath(__file__))
LINE = re.compile(r"(uu|uo|ou|oo) \w+ \w+ loss (\d+): sessions (\d+) whole (\d+) early (\d+) ")
# the mobile and the network, their label, their class in the style, and the mark
DRAWN = [
    ("uu", "um, um", "um", "circle"),
    ("ou", "libosmogsm, um", "second", "diamond"),
    ("uo", "um, libosmogsm", "first", "triangle"),
    ("oo", "libosmogsm, libosmogsm", "other", "square"),
]
LEFT, TOP, WIDE, HIGH = 74, 54, 640, 300
LOWEST, MOST = 40, 30
STYLE = """<style>
text{fill:#1a202c}.paper{fill:#ffffff}.grid{stroke:#d2d8e0;fill:none}.faint{fill:#4a5568}path.line{fill:none;stroke-width:2.2}
.um{stroke:#2a7a50;fill:#2a7a50}.second{stroke:#2b6cb0;fill:#2b6cb0}.first{stroke:#b7591b;fill:#b7591b}.other{stroke:#4a5568;fill:#4a5568}
@media (prefers-color-scheme:dark){text{fill:#e6edf3}.paper{fill:#0d1117}.grid{stroke:#30363d}.faint{fill:#9da7b3}
.um{stroke:#56d364;fill:#56d364}.second{stroke:#6cb0ff;fill:#6cb0ff}.first{stroke:#f0883e;fill:#f0883e}.other{stroke:#b1bac4;fill:#b1bac4}}
</style>"""


def read(path):
    """The number of sessions and of successful ones, by pair and percentage lost."""
    counts = {}
    for line in open(path, encoding="utf-8"):
        found = LINE.match(line)
        if found:
            pair, loss, sessions, whole, early = found[1], int(found[2]) / 10, *map(int, found.groups()[2:])
            before = counts.setdefault(pair, {}).setdefault(loss, [0, 0])
            before[0] += sessions
            before[1] += whole + early
    return counts


def x_of(loss):
    return LEFT + loss * WIDE / MOST


def y_of(percent):
    return TOP + (100 - percent) * HIGH / (100 - LOWEST)


def axes():
    for percent in range(LOWEST, 101, 10):
        y = y_of(percent)
        yield f'<path class="grid" d="M{LEFT} {y:g}h{WIDE}"/>'
        yield f'<text class="faint" x="{LEFT - 8}" y="{y + 4:g}" text-anchor="end">{percent} %</text>'
    for loss in (0, 1, 5, 10, 20, 30):
        x = x_of(loss)
        yield f'<path class="grid" d="M{x:.1f} {TOP}v{HIGH}"/>'
        yield f'<text class="faint" x="{x:.1f}" y="{TOP + HIGH + 20}" text-anchor="middle">{loss}</text>'
    yield f'<text class="faint" x="{LEFT + WIDE / 2:g}" y="{TOP + HIGH + 40}" text-anchor="middle">blocks lost on the air, %</text>'


def mark(kind, name, x, y):
    if kind == "circle":
        return f'<circle class="{name}" cx="{x:.1f}" cy="{y:.1f}" r="4.5"/>'
    if kind == "square":
        return f'<rect class="{name}" x="{x - 4:.1f}" y="{y - 4:.1f}" width="8" height="8"/>'
    shape = "l5 -5 5 5 -5 5z" if kind == "diamond" else "m0 4l5 -9 5 9z"
    return f'<path class="{name}" d="M{x - 5:.1f} {y:.1f}{shape}"/>'


def main():
    asked = argparse.ArgumentParser(description="Draws the share of sessions that succeed against the share of blocks lost.")
    asked.add_argument("measured", nargs="?", default=os.path.join(HERE, "..", "bench", "interop", "measured.txt"))
    counts = read(asked.parse_args().measured)
    sessions = sum(sessions for losses in counts.values() for sessions, _ in losses.values())
    out = [f'<text x="{LEFT}" y="26" font-size="15">Sessions that end well, of {sessions:,}; mobile and network</text>', *axes()]
    out.append(f'<rect class="paper" x="{LEFT + 12}" y="{TOP + HIGH - 106}" width="214" height="90"/>')
    for row, (pair, words, name, kind) in enumerate(DRAWN):
        points = [(x_of(loss), y_of(100 * well / sessions)) for loss, (sessions, well) in sorted(counts[pair].items())]
        path = " ".join(f"{x:.1f} {y:.1f}" for x, y in points)
        out.append(f'<path class="line {name}" style="fill:none" d="M{path}"/>')
        out += [mark(kind, name, x, y) for x, y in points]
        at = TOP + HIGH - 90 + 20 * row
        out.append(f'<path class="line {name}" d="M{LEFT + 20} {at}h26"/>{mark(kind, name, LEFT + 33, at)}')
        out.append(f'<text x="{LEFT + 56}" y="{at + 4}">{words}</text>')
    wide, high = LEFT + WIDE + 26, TOP + HIGH + 56
    print(f'<svg xmlns="http://www.w3.org/2000/svg" width="{wide}" height="{high}" viewBox="0 0 {wide} {high}" '
          'font-family="DejaVu Sans, Verdana, sans-serif" font-size="12">', STYLE,
          f'<rect class="paper" width="{wide}" height="{high}"/>', *out, "</svg>", sep="\n")


if __name__ == "__main__":
    main()
