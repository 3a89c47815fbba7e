#!/usr/bin/env python3
"""The wrong training bits of the three best bursts of a block, in blocks that 64 words and four erasures receive, and in random bits. Needs
numpy.

    three_best.py BLOCKS

Blocks in Gaussian noise, at each level with all bursts as they are, with one that never came, and with one of random bits, as strong as the
others or four times as strong. For each limit the share of blocks that have more."""
import os
import sys

import numpy

TOP = os.path.join(os.path.dirname(os.path.abspath(__file__)), "..", "..")
sys.path.insert(0, os.path.join(TOP, "bindings", "python"))
import um  # noqa: E402


LIMITS = 16, 18, 20, 22, 24


def random_bits(draw, shape, size=127):
    return um.soft_from_bits(draw.integers(0, 2, shape, dtype=numpy.uint8), size)


def shares(best):
    return " | ".join(f"{100 * (best > limit).mean():.2f}" for limit in LIMITS)


def counts(blocks):
    """Of each block the sum of all four bursts, and that of the three best."""
    found = numpy.sort([um.detect_training(block)[1] for block in blocks])
    return found.sum(axis=1), found[:, :3].sum(axis=1)


def main(number):
    draw = numpy.random.default_rng(2026)
    print("bursts | Es/N0, dB | received | sum above 23, % | three best: most |", " | ".join(f"above {limit}, %" for limit in LIMITS))
    for kind in ("all", "one missing", "one random", "one random, strong"):
        for deviation in (0.5, 0.65, 0.8, 0.95):
            octets = draw.integers(0, 256, (number, 23), dtype=numpy.uint8)
            sent = 1 - 2.0 * um.send_blocks(octets, 3) + deviation * draw.standard_normal((number, 4, 148))
            soft = um.soft_from_llr(sent, scale=32)
            bad = numpy.arange(number), draw.integers(0, 4, number)
            if kind != "all":
                soft[bad] = 0 if kind == "one missing" else random_bits(draw, (number, 148), 127 if kind.endswith("strong") else 32)
            right = [um.receive_block_erasing(block, 64, 4)[0].accepted == bytes(data) for block, data in zip(soft, octets)]
            if any(right):
                total, best = counts(soft[right])
                level = -20 * numpy.log10(deviation * 2**0.5)
                above = 100 * (total > 23).mean()
                print(f"{kind} | {level:.1f} | {sum(right)} of {number} | {above:.2f} | {best.max()} | {shares(best)}", flush=True)
    total, best = counts(random_bits(draw, (50 * number, 4, 148)))
    print(f"random bits | | {50 * number} | {100 * (total > 23).mean():.2f} | {best.max()} | {shares(best)}")


main(int(sys.argv[1]))
