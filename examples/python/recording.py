"""Decodes a recording of soft bits, prints a table of its blocks, and draws it.

    PYTHONPATH=bindings/python python3 examples/python/recording.py RECORDING [DRAWING.svg]

RECORDING is a .npy array, n x 4 x 148 or n x 592, or a raw file of int8, 592 octets per block: the normal bursts of n blocks, from -127
(certainly 1) to 127 (certainly 0); 0 means unknown. Floats are taken as log-likelihood ratios, ln P(0)/P(1). Blocks are decoded by list
decoding with 64 words. Needs numpy."""
import signal
import sys

import numpy
import um

if hasattr(signal, "SIGPIPE"):
    signal.signal(signal.SIGPIPE, signal.SIG_DFL)  # end quietly when the reader ends
BURST, GAP, ROW, LEFT = 222, 6, 14, 36
SURE = ("#dbe5ee", "#a9c1d6", "#6f97b9", "#2f6690")
WRONG, LOST = "#d1495b", "#f2f2f2"


def read_recording(name):
    if not name.endswith(".npy"):
        values = numpy.fromfile(name, numpy.int8)
        if values.size % 592:
            raise ValueError(f"{name} has {values.size} octets; expected a multiple of 592, the size of a block")
        if values.size and values.min() >= 9 and values.max() <= 126:
            raise ValueError(f"{name} is text; expected soft bits as int8, 592 octets for a block")
        return values.reshape(-1, 4, 148)
    try:
        values = numpy.load(name)
    except (EOFError, ValueError):
        raise ValueError(f"{name} is no array; expected a .npy file of int8 or floats") from None
    return um.soft_from_llr(values) if values.dtype.kind == "f" else values


def line_of(number, report):
    octets = bytes(report["octets"]).hex() if report["accepted"] else "not accepted"
    return f"{number:5} {report['tsc']:3} {report['wrong_training']:8} {report['wrong_coded']:6} {report['rank']:4}  {octets}"


def wrong_places(soft, reports):
    """The bits of the accepted blocks that were received wrong."""
    sent = um.send_blocks(reports["octets"], reports["tsc"])
    return ((soft > 0) != (sent == 0)) & (soft != 0) & reports["accepted"][:, None, None]


def runs(colours):
    """Each run of one colour: its start, length and colour."""
    edges = [0, *(numpy.flatnonzero(colours[1:] != colours[:-1]) + 1).tolist(), len(colours)]
    return [(start, end - start, colours[start]) for start, end in zip(edges, edges[1:])]


def draw(soft, reports):
    palette = numpy.array([*SURE, WRONG, LOST])
    sureness = numpy.clip(numpy.abs(soft.astype(int)) // 32, 0, 3)
    colours = palette[numpy.where(wrong_places(soft, reports), 4, numpy.where(soft == 0, 5, sureness))]
    width, height = LEFT + 4 * (BURST + GAP) + 330, ROW * (len(soft) + 2)
    lines = [f'<svg xmlns="http://www.w3.org/2000/svg" width="{width}" height="{height}" font-family="monospace" font-size="10">',
             f'<rect width="{width}" height="{height}" fill="white"/>',
             f'<text x="{LEFT}" y="11">four bursts per block: the darker, the more certain; red: wrong bit; grey: unknown</text>']
    for number, report in enumerate(reports):
        top = ROW * (number + 1) + 4
        for burst in range(4):
            left = LEFT + burst * (BURST + GAP)
            for start, count, colour in runs(colours[number, burst]):
                lines.append(f'<rect x="{left + start * 1.5:g}" y="{top}" width="{count * 1.5:g}" height="{ROW - 3}" fill="{colour}"/>')
        octets = bytes(report["octets"]).hex() if report["accepted"] else "not accepted"
        lines.append(f'<text x="{LEFT - 6}" y="{top + 9}" text-anchor="end">{number}</text>')
        lines.append(f'<text x="{LEFT + 4 * (BURST + GAP) + 4}" y="{top + 9}">{octets}</text>')
    return "\n".join([*lines, "</svg>\n"])


def main(name, drawing=None):
    soft = read_recording(name)
    reports = um.receive_blocks_among(soft, 64).ravel()
    soft = soft.reshape(-1, 4, 148)
    print("block tsc training errors rank  octets")
    for number, report in enumerate(reports):
        print(line_of(number, report))
    print(f"{reports['accepted'].sum()} of {len(reports)} blocks accepted")
    if drawing:
        with open(drawing, "w") as out:
            out.write(draw(soft, reports))


if len(sys.argv) not in (2, 3) or sys.argv[1].startswith("-"):
    sys.exit(__doc__)
try:
    main(*sys.argv[1:])
except (OSError, ValueError) as error:
    sys.exit(f"recording: {error}")
