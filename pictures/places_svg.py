#!/usr/bin/env python3
"""Draws the positions of the 456 coded bits of a block in its four bursts.

    pictures/places_svg.py [--um PROGRAM] > PICTURE.svg

The places are read off what `um code` prints: of 64 blocks the coded lists are computed here, and each coded bit is
found again at the place that has its values in all of them.  Standard library only.
"""
import argparse
import hashlib
import subprocess

COLOURS = ("#2b6cb0", "#c05621", "#2f855a", "#805ad5")
LEFT, TOP, WIDE, HIGH = 64, 60, 1100, 300


def bursts_of(um, lines):
    """The coded part of the bursts of each block: 114 bits of each burst, between tails, flags and training."""
    done = subprocess.run([um, "code"], input="".join(lines), capture_output=True, text=True, check=True)
    bursts = [line.split(" ")[1] for line in done.stdout.splitlines()]
    halves = [burst[3:60] + burst[88:145] for burst in bursts]
    return [halves[at : at + 4] for at in range(0, len(halves), 4)]


def information(um, octets):
    """The 228 information bits, from the report of `um replay`."""
    sent = subprocess.run([um, "code"], input=f"block 0 {octets}\n", capture_output=True, text=True, check=True).stdout
    said = subprocess.run([um, "replay"], input=sent, capture_output=True, text=True, check=True).stdout.split(" ")
    word = bytes.fromhex(octets) + bytes.fromhex(said[said.index("check") + 1].split("\n")[0])
    return [octet >> bit & 1 for octet in word for bit in range(8)] + [0] * 4


def coded(bits):
    """The code of rate 1/2: G0 = 1 + D3 + D4 and G1 = 1 + D + D3 + D4."""
    before = [0] * 4 + bits
    return [sum(before[k + 4 - at] for at in taps) % 2 for k in range(len(bits)) for taps in ((0, 3, 4), (0, 1, 3, 4))]


def places(um):
    """For each coded bit, its burst and its position among 114, found by its values in many blocks."""
    blocks = [hashlib.sha256(b"%d" % number).digest()[:23].hex() for number in range(64)]
    sent = bursts_of(um, [f"block 0 {octets}\n" for octets in blocks])
    at_places = {}
    for burst in range(4):
        for place in range(114):
            at_places.setdefault(tuple(int(block[burst][place]) for block in sent), []).append((burst, place))
    lists = [coded(information(um, octets)) for octets in blocks]
    # the last two coded bits are equal in every block, since the tail is zeros: the first is in the earlier burst
    return [at_places[tuple(bits[k] for bits in lists)].pop(0) for k in range(456)]


def main():
    asked = argparse.ArgumentParser(description="Draws the positions of the coded bits of a block.")
    asked.add_argument("--um", default="./um", help="the program (./um)")
    found = places(asked.parse_args().um)
    x_of = lambda k: LEFT + k * WIDE / 456
    y_of = lambda place: TOP + place * HIGH / 114
    title = "The coded bits of a block: bit k, from left to right, and its position in its burst"
    out = [f'<text x="{LEFT}" y="22" font-size="14">{title}</text>']
    for burst, colour in enumerate(COLOURS):
        out.append(f'<circle cx="{LEFT + 6 + 110 * burst}" cy="40" r="4" fill="{colour}"/>'
                   f'<text x="{LEFT + 16 + 110 * burst}" y="44" font-size="12">burst {burst}</text>')
    for place in (0, 28, 56, 57, 85, 113):
        out.append(f'<text x="{LEFT - 8}" y="{y_of(place) + (0 if place != 57 else 9):g}" font-size="10" text-anchor="end">{place}</text>')
    out.append(f'<rect x="{LEFT}" y="{TOP}" width="{WIDE}" height="{HIGH}" fill="none" stroke="#cbd5e0"/>')
    out.append(f'<path d="M{LEFT} {y_of(56.5):g}h{WIDE}" stroke="#a0aec0" stroke-dasharray="4 4"/>')
    out += [f'<circle cx="{x_of(k + 0.5):.1f}" cy="{y_of(place + 0.5):.1f}" r="1.9" fill="{COLOURS[burst]}"/>'
            for k, (burst, place) in enumerate(found)]
    for k in range(0, 457, 57):
        out.append(f'<text x="{x_of(k):g}" y="{TOP + HIGH + 16}" font-size="10" text-anchor="middle">{k}</text>')
    wide, high = LEFT + WIDE + 30, TOP + HIGH + 30
    print(f'<svg xmlns="http://www.w3.org/2000/svg" width="{wide}" height="{high}" viewBox="0 0 {wide} {high}" '
          'font-family="DejaVu Sans Mono, monospace" fill="#1a202c">', f'<rect width="{wide}" height="{high}" fill="white"/>', *out,
          "</svg>", sep="\n")


if __name__ == "__main__":
    main()
