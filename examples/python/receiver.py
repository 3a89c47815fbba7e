#!/usr/bin/env python3
"""Writes the blocks of one time slot as a capture for Wireshark, with the frame numbers and times of their first bursts.

    receiver.py COMBINATION TIMESLOT trx|int8|bits|grgsm [BURSTS] > CAPTURE.pcap

BURSTS, or else standard input, has a record for each burst that came, in the order of the frames: the frame number in four octets, most
significant first, and 148 octets as the TRX protocol sends them, as soft bits, or as hard bits. `grgsm` is a file of `grgsm_capture -b`,
with bursts of all time slots."""
import signal
import struct
import sys

import um

# octets of a record, where its frame number and its burst begin, and what makes soft bits of it
FORMS = {
    "trx": (152, 0, 4, um.soft_from_trx),
    "int8": (152, 0, 4, um.soft_from_sbits),
    "bits": (152, 0, 4, lambda bits: um.soft_from_bits(list(bits))),
    "grgsm": (174, 18, 26, lambda bits: um.soft_from_bits(list(bits))),
}
LATE_IN_A_ROW = 8
# the channel types of GSMTAP
TYPES = {"bcch_ccch_sdcch4": {"SDCCH": 7, "SACCH": 0x87}, "sdcch8": {"SDCCH": 8, "SACCH": 0x88}, "tch_f": {"SACCH": 0x89},
         "tch_h": {"SACCH": 0x8A}}


def bursts(file, form, timeslot):
    """The frame number and the soft bits of each burst. ValueError says which record is wrong, and what was expected."""
    size, frame, burst, soft = FORMS[form]
    for number, record in enumerate(iter(lambda: file.read(size), b""), 1):
        if len(record) != size:
            raise ValueError(f"record {number}, the last one, has {len(record)} octets; expected {size}")
        if record.isascii() and record.replace(b"\n", b"").decode().isprintable():
            raise ValueError(f"record {number} is text, {record[:12]!r}..; expected {size} octets, with the frame number at {frame}")
        # of gr-gsm's records, those of normal bursts of the time slot
        if form != "grgsm" or record[13] == timeslot and record[22] == 6:
            try:
                yield int.from_bytes(record[frame : frame + 4], "big"), soft(record[burst:])
            except ValueError as error:
                raise ValueError(f"record {number}: {error}") from None


def packet(block, timeslot, kind):
    """An IP packet with a block of 23 octets."""
    tap = struct.pack(">BBBBHbbIBBBB", 2, 4, 1, timeslot, 0, 0, 0, block.first, kind, 0, block.subchannel, 0) + block.report.accepted
    udp = struct.pack(">HHHH", 4729, 4729, 8 + len(tap), 0) + tap
    return struct.pack(">BBHHHBBH4s4s", 0x45, 0, 20 + len(udp), 0, 0, 64, 17, 0, b"\x7f\0\0\1", b"\x7f\0\0\1") + udp


def blocks(slot, given):
    """The blocks of the bursts. A doubled or late burst is left out; after many late ones in a row a frame number before them was false, or
    another recording begins."""
    late = 0
    for frame, soft in given:
        try:
            block, late = slot.take(frame, soft), 0
        except um.Refused as refused:
            late += refused.reason == "late"
            if late < LATE_IN_A_ROW:
                continue
            slot.restart()
            block, late = slot.take(frame, soft), 0
        except ValueError as error:
            raise ValueError(f"the burst of frame {frame}: {error}") from None
        yield block
    yield slot.end()


def receive(combination, timeslot, form, file, out):
    slot = um.Slot(combination, "downlink", timeslot, words=16, erasures=4, limit=20)
    kinds = {"BCCH": 1, "CCCH": 2, **TYPES.get(combination, {})}
    out.write(struct.pack("<IHHiIII", 0xA1B2C3D4, 2, 4, 0, 0, 65535, 101))
    for block in blocks(slot, bursts(file, form, timeslot)):
        if block and block.report.accepted:
            data = packet(block, timeslot, kinds[block.channel.name])
            # a frame takes 120 / 26 ms
            seconds, rest = divmod(block.first * 120000 // 26, 1000000)
            out.write(struct.pack("<IIII", seconds, rest, len(data), len(data)) + data)
            out.flush()


def main(words):
    if len(words) not in (3, 4):
        sys.exit(__doc__)
    combination, timeslot, form, *names = words
    if not (timeslot.isdecimal() and int(timeslot) < 8):
        raise ValueError(f"TIMESLOT is {timeslot!r}; expected 0 to 7")
    if form not in FORMS:
        raise ValueError(f"the form is {form!r}; expected {', '.join(FORMS)}")
    with open(names[0], "rb") if names else sys.stdin.buffer as file:
        receive(combination, int(timeslot), form, file, sys.stdout.buffer)


if hasattr(signal, "SIGPIPE"):
    signal.signal(signal.SIGPIPE, signal.SIG_DFL)  # end quietly when the reader ends
try:
    main(sys.argv[1:])
except (OSError, ValueError) as error:
    sys.exit(f"receiver: {error}")
