"""The bursts of a cell by `um code`, each in the frame where the multiframe tables of osmo-bts (vectors/schedule.out) have its channel."""
import os
import subprocess

import numpy

TOP = os.path.join(os.path.dirname(os.path.abspath(__file__)), "..", "..")
CYCLE = 102  # frames after which the tables repeat
DUMMY = (  # 45.002, 5.2.6
    "0001111101101110110000010100100111000001001000100000001111100011100010111000101110001010111010010100011001100111001111010011"
    "111000100101111101010000"
)


def program(command, lines):
    """The lines that the program prints for these."""
    done = subprocess.run([os.path.join(TOP, "um"), command], input="\n".join(lines) + "\n", stdout=subprocess.PIPE, text=True, check=True)
    return done.stdout.splitlines()


def row(digits):
    return numpy.frombuffer(digits.encode(), numpy.uint8) - ord("0")


def sch_bits(bsic, frame):
    """The 25 bits of SCH: the octets of 44.018, 9.1.30a, each with the least significant bit first; of the last one bit."""
    t1, t2, t3 = frame // 1326, frame % 26, frame % 51 // 10
    octets = bsic << 2 | t1 >> 9, t1 >> 1 & 255, (t1 & 1) << 7 | t2 << 2 | t3 >> 1, t3 & 1
    return "".join(str(octet >> bit & 1) for octet in octets for bit in range(8))[:25]


def tables(combination):
    """For each of the eight time slots the channels of a cycle; SDCCH/8 in all but slot 0."""
    with open(os.path.join(TOP, "vectors", "schedule.out"), encoding="ascii") as lines:
        slots = {(words[0], words[1]): words[3:] for words in map(str.split, lines) if words[2] == "0"}
    return [slots[combination, "downlink"]] + 7 * [slots["sdcch8", "downlink"]]


def cell(combination, bsic, first, count, draw, given=()):
    """`count` frames from frame `first` on (multiples of 102) of a cell: the bits, frames x slots x 148; the octets of each block in
    hexadecimal by the slot and frame of its first burst; and the bits of each SCH by its frame. Blocks that are not given are random."""
    bits = numpy.empty((count, 8, 148), numpy.uint8)
    bits[:] = row(DUMMY)
    lines, blocks, syncs = [], {}, {}
    for slot, table in enumerate(tables(combination)):
        for frame in range(count):
            channel, _, burst = table[frame % CYCLE].partition(".")
            if channel == "fcch":
                bits[frame, slot] = 0
            elif channel == "sch":
                syncs[first + frame] = sch_bits(bsic, first + frame)
                lines.append((slot, frame, "sch " + syncs[first + frame]))
            elif burst.endswith(".0"):
                key = slot, first + frame
                blocks[key] = given[key] if key in given else draw.bytes(23).hex()
                lines.append((slot, frame, f"block {bsic & 7} {blocks[key]}"))
    answers = iter(program("code", [line for _, _, line in lines]))
    for slot, frame, line in lines:
        for later in range(4 if line.startswith("block") else 1):
            bits[frame + later, slot] = row(next(answers)[2:])
    return bits, blocks, syncs
