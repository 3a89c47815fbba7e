#!/usr/bin/env python3
"""Draws one block: octets, information bits, coded bits, four bursts, and the decoded report.

    pictures/block_svg.py [--um PROGRAM] [--octet N] T HEX46 > PICTURE.svg

The bursts are those that `um code` prints, the parity is read by `um replay`.  The bits of one octet are outlined
all the way down.  Standard library only.
"""
import argparse
import subprocess

from places_svg import COLOURS, coded, information, places

WIDE, LEFT, CELL = 1216, 110, 8
DATA, PARITY, TAIL, FIXED = "#2b6cb0", "#c05621", "#718096", "#a0aec0"


def tone(colour, bit):
    """A 1 in full colour, a 0 in a light tone."""
    weight = 1.0 if bit else 0.22
    return "#%02x%02x%02x" % tuple(round(255 + (int(colour[i : i + 2], 16) - 255) * weight) for i in (1, 3, 5))


class Picture:
    def __init__(self):
        self.out, self.y = [], 26

    def text(self, x, y, words, size=12, anchor="start", colour="#1a202c"):
        self.out.append(f'<text x="{x:g}" y="{y:g}" font-size="{size}" text-anchor="{anchor}" fill="{colour}">{words}</text>')

    def cell(self, x, y, wide, high, fill, marked, title):
        edge = ' stroke="#1a202c" stroke-width="1.3"' if marked else ""
        self.out.append(f'<rect x="{x:.2f}" y="{y:g}" width="{wide - 0.5:.2f}" height="{high}" fill="{fill}"{edge}>'
                        f'<title>{title}</title></rect>')

    def heading(self, words):
        self.text(LEFT, self.y, words, 12, colour="#4a5568")
        self.y += 8

    def svg(self):
        high = self.y + 10
        return "\n".join([
            f'<svg xmlns="http://www.w3.org/2000/svg" width="{LEFT + WIDE + 20}" height="{high}" viewBox="0 0 {LEFT + WIDE + 20} {high}"'
            ' font-family="DejaVu Sans Mono, monospace">',
            f'<rect width="{LEFT + WIDE + 20}" height="{high}" fill="white"/>', *self.out, "</svg>"])


def sums(k):
    """The information bits whose sum is this coded bit."""
    taps = (0, 1, 3, 4) if k % 2 else (0, 3, 4)
    return " + ".join(f"u({k // 2 - at})" for at in taps if k // 2 >= at)


def draw(um, tsc, octets, octet):
    picture, wide = Picture(), WIDE / 228
    bits = information(um, octets)
    chosen = range(8 * octet, 8 * octet + 8)
    marked = [any(k // 2 - at in chosen for at in ((0, 1, 3, 4) if k % 2 else (0, 3, 4))) for k in range(456)]
    picture.heading("23 octets, each from its bit of value 1 on")
    for at, value in enumerate(bytes.fromhex(octets)):
        picture.cell(LEFT + 8 * at * wide, picture.y, 8 * wide, 18, "#ebf4ff", at == octet, f"octet {at}")
        picture.text(LEFT + (8 * at + 4) * wide, picture.y + 13, f"{value:02x}", 11, "middle")
    picture.y += 42
    picture.heading("information list u(0) to u(227): 184 bits of data, 40 of parity (Fire code), 4 of tail")
    for k, bit in enumerate(bits):
        colour = DATA if k < 184 else PARITY if k < 224 else TAIL
        picture.cell(LEFT + k * wide, picture.y, wide, 18, tone(colour, bit), k in chosen, f"u({k}) = {bit}")
    picture.y += 42
    picture.heading("coded list c(0) to c(455): each is a sum of information bits (rate one half); coloured by the burst that carries it")
    found = places(um)
    for k, bit in enumerate(coded(bits)):
        burst, place = found[k]
        title = f"c({k}) = {sums(k)} = {bit}; burst {burst}, place {place}"
        picture.cell(LEFT + k // 2 * wide, picture.y + k % 2 * 15, wide, 14, tone(COLOURS[burst], bit), marked[k], title)
    picture.y += 54
    picture.heading("four normal bursts of 148 bits: tail, 57 coded bits, flag, training sequence, flag, 57 coded bits, tail")
    sent = subprocess.run([um, "code"], input=f"block {tsc} {octets}\n", capture_output=True, text=True, check=True).stdout
    index = {where: k for k, where in enumerate(found)}
    for burst, line in enumerate(sent.splitlines()):
        picture.text(LEFT - 10, picture.y + 13, f"burst {burst}", 11, "end", "#4a5568")
        for at, bit in enumerate(map(int, line.split(" ")[1])):
            half = at - 3 if 3 <= at < 60 else at - 31 if 88 <= at < 145 else None
            k = index.get((burst, half))
            title = f"burst {burst}, position {at}: " + ("fixed" if k is None else f"c({k}) = {sums(k)}") + f" = {bit}"
            fill = tone(FIXED if k is None else COLOURS[burst], bit)
            picture.cell(LEFT + at * CELL, picture.y, CELL, 18, fill, k is not None and marked[k], title)
        picture.y += 25
    picture.y += 16
    picture.heading("and back: what is received of these bursts")
    for line in subprocess.run([um, "replay"], input=sent, capture_output=True, text=True, check=True).stdout.splitlines():
        picture.y += 16
        picture.text(LEFT, picture.y, line, 11)
    return picture.svg()


def main():
    asked = argparse.ArgumentParser(description="Draws one block from octets to bursts.")
    asked.add_argument("--um", default="./um", help="the program (./um)")
    asked.add_argument("--octet", type=int, default=3, help="the octet whose bits are outlined (3)")
    asked.add_argument("tsc")
    asked.add_argument("octets")
    said = asked.parse_args()
    print(draw(said.um, said.tsc, said.octets, said.octet))


if __name__ == "__main__":
    main()
