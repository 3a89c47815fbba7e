#!/usr/bin/python3
"""Percent of blocks lost behind GMSK, a channel and a demodulator. Needs Debian's gr-gsm, gnuradio, libosmocore and python3-numpy.

    chain.py CHANNEL CYCLES ES/N0..

CHANNEL: `awgn`, noise alone; `two`, two equal paths, one symbol apart; `tu50`, GNU Radio's selective fading with the six taps of TU
(45.005, annex C) at 50 km/h. Eight cells, one for each training sequence, send so many cycles of 102 frames; each level in dB has the same
fading. `gr-gsm` is its decoder. The other columns decode, first, the hard bits that gr-gsm hands out, then the soft bits of max-log BCJR
on gr-gsm's filter and channel estimate: by libosmocoding, by `um` with 1, 4, 16 and 64 words, and with 1 and 64 words and four erasures."""
import collections
import ctypes
import os
import platform
import sys

import numpy

TOP = os.path.join(os.path.dirname(os.path.abspath(__file__)), "..", "..")
sys.path[:0] = os.path.join(TOP, "checks", "receiver_parts"), os.path.join(TOP, "bindings", "python")
os.environ.setdefault("UM_SO", os.path.join(TOP, "dist", platform.machine() + "-linux", "libum.so.0"))
import um  # noqa: E402
from cell import CYCLE, cell  # noqa: E402
from demodulated import LEAD, faded, received_power, soft_values, with_noise  # noqa: E402
from radio import SAMPLES, modulated, received  # noqa: E402

FIRST = 200 * CYCLE
FIELDS = ("osmo", 1, 4, 16, 64, (1, 4), (64, 4))


def by_osmo(soft):
    """libosmocoding's answers: whether it accepts, and the octets."""
    accepted, octets, counts = numpy.zeros(len(soft), bool), numpy.zeros((len(soft), 23), numpy.uint8), (ctypes.c_int * 2)()
    coded = numpy.ascontiguousarray(numpy.concatenate([soft[:, :, 3:61], soft[:, :, 87:145]], axis=2))
    decode = ctypes.CDLL("libosmocoding.so.0").gsm0503_xcch_decode
    decode.argtypes = [ctypes.c_void_p] * 4
    for i, values in enumerate(coded):
        accepted[i] = decode(octets[i].ctypes.data, values.ctypes.data, ctypes.byref(counts), ctypes.byref(counts, 4)) == 0
    return accepted, octets


def by_um(soft, words, erasures=0):
    reports = um.receive_blocks_among(soft, words)
    accepted, octets = reports["accepted"].copy(), reports["octets"].copy()
    for i in numpy.flatnonzero(~accepted) if erasures else ():
        report = um.receive_block_erasing(soft[i], words, erasures)[0]
        if report.accepted is not None:
            accepted[i], octets[i] = True, numpy.frombuffer(report.accepted, numpy.uint8)
    return accepted, octets


def tried(channel, cycles, levels, tsc, lost):
    """Adds the counts of a cell to those lost: for each level the blocks, the wrong ones, and those lost by each decoder."""
    bits, sent, _ = cell("bcch_ccch", 0o50 | tsc, FIRST, cycles * CYCLE + 51, numpy.random.default_rng([7, tsc]))
    signal = numpy.pad(faded(modulated(bits), channel, 7 + tsc), (LEAD, 20000)).astype(numpy.complex64)
    power = received_power(signal)
    keys = [key for key in sent if CYCLE <= key[1] - FIRST < cycles * CYCLE]
    octets = numpy.array([list(bytes.fromhex(sent[key])) for key in keys], numpy.uint8)
    bursts = [(slot, frame + later) for slot, frame in keys for later in range(4)]
    for level in levels:
        draw = numpy.random.default_rng([round(10 * level), tsc])
        variance = SAMPLES * power / 10 ** (level / 10)
        samples = with_noise(signal, variance, CYCLE, draw)
        heard, messages, filtered = received(samples, combined=False, ppm=0, awaited=keys, quiet=1)
        counts = lost[level]
        counts["blocks"] += len(keys)
        counts["gr-gsm"] += sum(messages.get(key) != bytes.fromhex(sent[key]) for key in keys)
        hard = numpy.array([127 - 254 * numpy.array(list(heard[key]), int) if key in heard else numpy.zeros(148) for key in bursts])
        values = soft_values(filtered, bursts, FIRST, bits[4, 1, 61:87], variance)
        for name, soft in (("hard", hard.astype(numpy.int8)), ("soft", um.soft_from_llr(numpy.clip(values, -999, 999)))):
            soft = soft.reshape(-1, 4, 148)
            for field in FIELDS:
                accepted, said = by_osmo(soft) if field == "osmo" else by_um(soft, *(field if isinstance(field, tuple) else (field,)))
                counts[name, field] += int((~accepted).sum())
                counts["wrong"] += int((said[accepted] != octets[accepted]).any(axis=1).sum())


def main():
    channel, cycles, levels = sys.argv[1], int(sys.argv[2]), list(map(float, sys.argv[3:]))
    lost = collections.defaultdict(collections.Counter)
    for tsc in range(8):
        tried(channel, cycles, levels, tsc, lost)
    for level, counts in lost.items():
        decoders = ["gr-gsm"] + [(name, field) for name in ("hard", "soft") for field in FIELDS]
        shares = [f"{100 * counts[decoder] / counts['blocks']:.2f}" for decoder in decoders]
        print(f"{channel} | {level:g} |", " | ".join(shares), f"| {counts['blocks']} blocks, {counts['wrong']} wrong")


main()
