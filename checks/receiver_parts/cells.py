"""Eight cells, one for each training sequence, by `um code` through gr-gsm's modulator, an offset of carrier and clock, and noise to
gr-gsm's receiver: the messages of gr-gsm's decoder, the blocks of the library's time slots, and what `um replay` says are those sent, and
the frame number and BSIC of each SCH too. Then the 47 messages of gr-gsm's own test.

    cells.py [grgsm_decode_test1_expected]      messages with their frame numbers, from gr-gsm's sources"""
import sys

import numpy

import um
from cell import CYCLE, cell, program, tables
from radio import modulated, received, sampled

COUNTED = CYCLE, 4 * CYCLE  # frames; in those before, the receiver finds the cell


def replayed(bursts, places):
    """What `um replay` says of the bursts of blocks, and of SCH, whose place has one burst."""
    lines = []
    for slot, frame, count in places:
        heard = [bursts.get((slot, frame + later), bytes(148)) for later in range(count)]
        lines += [("n " if count == 4 else "s ") + "".join(map(str, bits)) for bits in heard]
    answers = [line for line in program("replay", lines) if " parity " in line]
    return [line.partition(" metric")[0] + line.partition(" parity")[2].partition(" check")[0] for line in answers]


def collected(bursts, combination, counted):
    """The blocks of the library's time slots, by slot and first frame, and what each SCH says, by frame. They are given each burst with its
    frame number, and nothing else."""
    blocks, syncs = {}, {}
    for timeslot in range(8):
        slot = um.Slot("sdcch8" if timeslot else combination, timeslot=timeslot)
        for frame in range(counted.start, counted.stop + 3):  # the last block may end so much later
            bits = bursts.get((timeslot, frame))
            soft = um.soft_from_bits(bits) if bits else None
            block = slot.take(frame, soft)
            if block and block.heard and block.first in counted:
                blocks[timeslot, block.first] = block
            place = um.place_frame(slot.combination, "downlink", timeslot, frame)
            if place and place.channel == um.Channel.SCH and soft is not None:
                report = um.receive_sync(soft)
                syncs[frame] = report.wrong_training, um.read_sch(report.accepted) if report.accepted else None
    return blocks, syncs


def is_sent(block, tsc, data, channel):
    """Whether a block is the one sent, without a wrong training bit; the subchannel of CCCH is not in the tables."""
    if block is None or f"{block.channel.name.lower()}.{'*' if block.channel == um.Channel.CCCH else block.subchannel}" != channel:
        return False
    report = block.report
    return (block.heard, report.wrong_training, report.tsc, report.accepted) == (4, 0, tsc, bytes.fromhex(data))


def faults(bursts, combination, bsic, counted, blocks, syncs):
    """What is wrong with the library's blocks and synchronisation bursts."""
    heard, said = collected(bursts, combination, counted)
    of_slot = tables(combination)
    channels = {key: of_slot[key[0]][key[1] % CYCLE].removesuffix(".0") for key in blocks}
    wrong = [f"block {key}: sent {data}, um.Slot {heard.get(key)}" for key, data in blocks.items()
             if not is_sent(heard.get(key), bsic & 7, data, channels[key])]
    wrong += [f"block {key}: not sent, um.Slot {block}" for key, block in heard.items() if key not in blocks]
    wanted = {frame: (0, um.Sch(frame, bsic, bsic >> 3, bsic & 7)) for frame in syncs}
    return wrong + [f"SCH {frame}: um {said.get(frame)}" for frame in wanted if said.get(frame) != wanted[frame]]


def tried(tsc):
    """The number of blocks and SCH bursts of a cell, and what is wrong."""
    combination = ("bcch_ccch", "bcch_ccch_sdcch4")[tsc % 2]
    bsic, first = (7 - tsc) << 3 | tsc, CYCLE * (500 + 3330 * tsc)
    bits, blocks, syncs = cell(combination, bsic, first, COUNTED[1] + 51, numpy.random.default_rng(tsc))
    samples = numpy.pad(modulated(bits), (1000 + 37 * tsc, 20000))
    ppm = 0.4 * (tsc - 3.5)
    samples = sampled(samples, ppm + 0.05, 0.05, 1 + tsc)  # not all of it is corrected: 46 Hz are left
    counted = range(first + COUNTED[0], first + COUNTED[1])
    blocks = {key: data for key, data in blocks.items() if key[1] in counted}
    syncs = {frame: data for frame, data in syncs.items() if frame in counted}
    bursts, messages, _ = received(samples, tsc % 2, ppm, awaited=blocks, quiet=10)
    said = {key: octets.hex() for key, octets in messages.items()}
    wrong = [f"block {key}: sent {data}, gr-gsm's decoder {said.get(key)}" for key, data in blocks.items() if said.get(key) != data]
    expected = [f"block tsc {tsc} train 0 ok data {data}" for data in blocks.values()]
    expected += [f"sync train 0 ok data {data}" for data in syncs.values()]
    answers = replayed(bursts, [(*key, 4) for key in blocks] + [(0, frame, 1) for frame in syncs])
    wrong += [f"sent {data}, um {answer}" for data, answer in zip(expected, answers, strict=True) if data != answer]
    wrong += faults(bursts, combination, bsic, counted, blocks, syncs)
    return len(blocks), len(syncs), [f"training sequence {tsc}: {text}" for text in wrong]


def of_grgsm(path):
    """The messages of BCCH and CCCH in a file of gr-gsm's tests, sent again, and those that a time slot of the library reports."""
    with open(path, encoding="ascii") as lines:
        sent = {(0, int(head.split()[0])): bytes.fromhex(data).hex() for head, data in (line.split(":") for line in lines)}
    frames = [frame for _, frame in sent]
    first = (min(frames) // CYCLE - 1) * CYCLE
    counted = range(min(frames), max(frames) + 1)
    count = (max(frames) - first) // 51 * 51 + 102
    bits, _, _ = cell("bcch_ccch", 0o56, first, count, numpy.random.default_rng(56), sent)
    samples = sampled(numpy.pad(modulated(bits), (1000, 20000)), 0.05, 0.05, 9)
    bursts, messages, _ = received(samples, combined=False, ppm=0, awaited=sent, quiet=10)
    wrong = faults({key: burst for key, burst in bursts.items() if key[0] == 0}, "bcch_ccch", 0o56, counted, sent, {})
    return len(sent), wrong + [f"block {key}: gr-gsm's decoder" for key in sent if messages.get(key) != bytes.fromhex(sent[key])]


def main():
    results = [tried(tsc) for tsc in range(8)]
    wrong = [text for _, _, texts in results for text in texts]
    blocks, syncs = sum(result[0] for result in results), sum(result[1] for result in results)
    print(f"receiver: {blocks} blocks and {syncs} SCH of eight cells through gr-gsm's modulator and receiver, {len(wrong)} wrong")
    for path in sys.argv[1:]:
        count, others = of_grgsm(path)
        print(f"receiver: {count} messages of gr-gsm's own test, {len(others)} wrong")
        wrong += others
    for text in wrong[:20]:
        print("receiver:", text)
    return bool(wrong)


sys.exit(main())
