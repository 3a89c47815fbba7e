#!/usr/bin/python3
"""Writes grgsm.in and grgsm.out beside itself: 34 blocks as gr-gsm's receiver hands out their bursts at an Es/N0 of 4 dB, and what
`um replay` says of each if it finds the word sent: from the bits sent, without decoding. grgsm.bursts has the bursts of time slots 0 and 1,
a file of gr-gsm's burst_file_sink. Needs Debian's packages gr-gsm and gnuradio."""
import os
import sys
import tempfile

import numpy

HERE = os.path.dirname(os.path.abspath(__file__))
sys.path.insert(0, os.path.join(HERE, "..", "checks", "receiver_parts"))
from cell import CYCLE, cell  # noqa: E402
from radio import FRAME, SAMPLES, modulated, noise, received  # noqa: E402

FIRST, TSC = 2160 * CYCLE, 5


def main():
    draw = numpy.random.default_rng(77)
    bits, blocks, _ = cell("bcch_ccch", 0o20 | TSC, FIRST, 2 * CYCLE, draw)
    samples = numpy.pad(modulated(bits), (1000, 20000))
    deviation = numpy.full(len(samples), 0.01)
    deviation[1000 + CYCLE * FRAME :] = numpy.sqrt(SAMPLES / 10**0.4)  # the first cycle is clean: there the receiver finds the cell
    samples = samples + noise(len(samples), deviation, draw)
    with tempfile.NamedTemporaryFile() as file:
        bursts, messages, _ = received(samples, combined=False, ppm=0, awaited=blocks, quiet=5, file=file.name)
        records = numpy.fromfile(file.name, numpy.uint8).reshape(-1, 174)
    at = records[:, 18:22].astype(int) @ [1 << 24, 1 << 16, 1 << 8, 1] - FIRST - CYCLE
    records[(records[:, 13] < 2) & (0 <= at) & (at < CYCLE // 2)].tofile(os.path.join(HERE, "grgsm.bursts"))
    keys = [key for key in blocks if key[0] < 3 and 0 <= key[1] - FIRST - CYCLE < CYCLE // 2]
    given = 0
    lines, out = open(os.path.join(HERE, "grgsm.in"), "w", encoding="ascii"), open(os.path.join(HERE, "grgsm.out"), "w", encoding="ascii")
    with lines, out:
        for slot, frame in keys:
            heard = [bursts[slot, frame + later] for later in range(4)]
            wrong = numpy.array([list(burst) for burst in heard]) != bits[frame - FIRST : frame - FIRST + 4, slot]
            coded = wrong[:, 3:60].sum() + wrong[:, 88:145].sum()
            print(f"# time slot {slot} frame {frame}", *("n " + "".join(map(str, burst)) for burst in heard), sep="\n", file=lines)
            said = f"train {wrong[:, 61:87].sum()} metric {127 * (456 - 2 * coded)} parity ok data {blocks[slot, frame]}"
            print(f"block tsc {TSC} {said}", file=out)
            given += messages.get((slot, frame)) == bytes.fromhex(blocks[slot, frame])
    print(f"{len(keys)} blocks; gr-gsm's decoder gives {given}")


main()
