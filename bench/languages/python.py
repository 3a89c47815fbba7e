"""The package for Python: us a block for each call, alternately, the least of many rounds, with its mark. Called by measure.sh."""
import resource
import time
from concurrent.futures import ThreadPoolExecutor

import numpy
import um
from um import _each

FEW, MANY, ROUNDS = 200, 40_000, 300


def least(calls, rounds):
    """The least time of each call in seconds, with one round of each in turn."""
    best = dict.fromkeys(calls, 1e9)
    for _ in range(rounds):
        for name, call in calls.items():
            start = time.perf_counter()
            call()
            best[name] = min(best[name], time.perf_counter() - start)
    return best


def main():
    draw = numpy.random.default_rng(0)
    octets = draw.integers(0, 256, (MANY, 23), numpy.uint8)
    bursts = um.send_blocks(octets, 3)
    soft = um.soft_from_llr((1 - 2.0 * bursts) * 64 + draw.normal(0, 30, bursts.shape), scale=1)
    ratios, few = draw.normal(0, 5, (FEW, 4, 148)).astype(numpy.float32), soft[:FEW]
    access = um.soft_from_bits(draw.integers(0, 2, (FEW, 88), numpy.uint8))
    words = um.receive_blocks(few)["word"][:, :224].copy()
    print("Python, loops in", "C" if _each._in_c else "Python")
    marks = {
        "receive_blocks": (1.6, lambda: um.receive_blocks(few)),
        "receive_blocks_among, 64 words": (None, lambda: um.receive_blocks_among(few, 64)),
        "send_blocks": (None, lambda: um.send_blocks(octets[:FEW], 3)),
        "margin_blocks": (None, lambda: um.margin_blocks(few)),
        "receive_accesses, a burst": (None, lambda: um.receive_accesses(access, [0] * 6)),
        "receive_syncs, a burst": (None, lambda: um.receive_syncs(few[:, 0])),
        "repair_words, a word": (None, lambda: um.repair_words(words)),
        "read_frames, a frame": (None, lambda: um.read_frames(octets[:FEW])),
        "soft_from_llr, float32": (1.8, lambda: um.soft_from_llr(ratios)),
        "soft_from_bits": (0.35, lambda: um.soft_from_bits(bursts[:FEW])),
        "receive_block, one": (None, lambda: [um.receive_block(block) for block in few]),
        "send_block, one": (None, lambda: [um.send_block(block, 3) for block in octets[:FEW]]),
    }
    for name, seconds in least({name: call for name, (_, call) in marks.items()}, ROUNDS).items():
        mark = marks[name][0]
        print(f"  {name}: {seconds / FEW * 1e6:.2f}" + (f", mark {mark}" if mark else ""))
    for threads, mark in ((1, 1.2), (2, 0.7), (4, 0.6)):
        parts = numpy.array_split(soft, threads)
        with ThreadPoolExecutor(threads) as pool:
            seconds = least({"": lambda: list(pool.map(um.receive_blocks, parts))}, 15)[""]
        print(f"  {MANY} blocks, {threads} threads: {seconds / MANY * 1e6:.2f}" + (f", mark {mark}" if mark else ""))
    large = numpy.resize(ratios, (20_000, 592))
    before = resource.getrusage(resource.RUSAGE_SELF).ru_maxrss
    um.soft_from_llr(large)
    grown = resource.getrusage(resource.RUSAGE_SELF).ru_maxrss - before
    print(f"  soft_from_llr of {large.nbytes >> 20} MB: the memory grows by {grown >> 10} MB, {large.size >> 20} MB for the result")


main()
