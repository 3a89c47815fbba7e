"""The blocks of gnuradio/ beside gr-gsm's on the bursts that gr-gsm's receiver hands out of a cell in fading, and um-decode on the same
bursts in gr-gsm's file: nothing wrong, and never fewer messages than gr-gsm's. The same deciphered, in both directions; Debian's
grgsm_decode with these blocks; and the receiver of gnuradio/gr-gsm, if there is a module gsm_soft.

    flows.py                          the check
    flows.py CHANNEL CYCLES DB..      what each chain loses, in percent of the blocks of eight cells (bench/chain/README.md)"""
import collections
import ctypes
import subprocess
import sys
import tempfile
import time

import numpy
import pmt
from gnuradio import gr, gsm

import um
import um_gsm
from cell import CYCLE, cell
from demodulated import LEAD, faded, received_power, soft_values, with_noise
from radio import RATE, SAMPLES, Kept, modulated, received
from um.gsmtap import UPLINK

try:
    import gsm_soft  # of gnuradio/gr-gsm
except ImportError:
    gsm_soft = None

FIRST = 200 * CYCLE
COMBINATIONS = {slot: "sdcch8" if slot else "bcch_ccch" for slot in range(8)}
KEY = bytes.fromhex("1EF00BAB3BAC7002")
CODED = numpy.r_[3:60, 88:145]
LAST = bytes(range(23))  # the octets of the last block of each time slot, which ends a flow graph
HEADER = 16

gr.prefs().set_long("DEFAULT", "max_messages", 1000000)


class Source(gr.basic_block):
    """A source of messages."""

    def __init__(self):
        gr.basic_block.__init__(self, "source", None, None)
        self.message_port_register_out(pmt.intern("out"))


class Heard:
    """What a cell sent, and what gr-gsm's receiver handed out of it: rows of a header and 148 hard bits, or soft bits."""

    def __init__(self, channel, cycles, level, tsc, folder):
        self.tsc = tsc
        bits, sent, _ = cell("bcch_ccch", 0o50 | tsc, FIRST, cycles * CYCLE + 51, numpy.random.default_rng([11, tsc]))
        signal = numpy.pad(faded(modulated(bits), channel, 11 + tsc), (LEAD, 20000)).astype(numpy.complex64)
        variance = SAMPLES * received_power(signal) / 10 ** (level / 10)
        self.frames = FIRST + CYCLE, FIRST + cycles * CYCLE
        self.samples = with_noise(signal, variance, CYCLE, numpy.random.default_rng([round(10 * level), tsc, 3]))
        self.sent = {key: bytes.fromhex(data) for key, data in sent.items() if CYCLE <= key[1] - FIRST < cycles * CYCLE}
        self.file = f"{folder}/{channel}_{level:g}_{tsc}.bursts"
        _, _, filtered = received(self.samples, combined=False, ppm=0, awaited=self.sent, quiet=5, file=self.file)
        self.hard = self.read(self.file)
        bursts = [(int(row[3]), int(frame)) for row, frame in zip(self.hard, frames_of(self.hard))]
        values = soft_values(filtered, bursts, FIRST, bits[4, 1, 61:87], variance)
        soft = um.soft_from_llr(numpy.clip(values, -999, 999)).view(numpy.uint8)
        soft[:, -1] = 127  # a tail bit, which says that these are soft bits
        soft[self.hard[:, 12] != 6] = um.soft_from_bits(self.hard[self.hard[:, 12] != 6, HEADER:]).view(numpy.uint8)
        self.soft = numpy.concatenate([self.hard[:, :HEADER], soft], axis=1)

    def read(self, file):
        """The bursts in a file of gr-gsm, without those of the clean frames in front."""
        rows = numpy.fromfile(file, numpy.uint8).reshape(-1, 174)[:, 174 - HEADER - 148 :]
        frames = frames_of(rows)
        return rows[(frames >= self.frames[0]) & (frames < self.frames[1])]

    def counts(self, messages):
        """How many messages are right, and how many wrong; those of the clean frames do not count."""
        inside = {key: octets for key, octets in messages.items() if self.frames[0] <= key[1] < self.frames[1]}
        return (sum(self.sent.get(key) == octets for key, octets in inside.items()),
                sum(self.sent.get(key) != octets for key, octets in inside.items()))


def frames_of(rows):
    return rows[:, 8:12].astype(int) @ [1 << 24, 1 << 16, 1 << 8, 1]


def last_blocks(rows, tsc, is_soft):
    """Bursts of one clean block more in each time slot that has rows, in a later multiframe."""
    frame = (int(frames_of(rows).max()) // CYCLE + 2) * CYCLE
    made = []
    for slot in sorted(set(rows[:, 3].tolist())):
        for later, bits in enumerate(um.send_block(LAST, tsc)):
            head = bytes([2, 4, 3, slot, 0, 0, 0, 0]) + (frame + 2 * (slot == 0) + later).to_bytes(4, "big") + bytes([6, 0, 0, 0])
            made.append(numpy.frombuffer(head + (um.soft_from_bits(bits).tobytes() if is_soft else bits), numpy.uint8))
    return numpy.array(made)


def said(rows, connect, ends, slots):
    """The messages, by slot and frame, of a flow graph whose blocks `connect` makes and connects to a source and to the sinks that it
    returns. It ends when each time slot's last block came out."""
    graph, source = gr.top_block(), Source()
    graph.kept, sinks = [source], []
    connect(graph, source, sinks)
    graph.start()
    for row in rows:
        source.message_port_pub(pmt.intern("out"), um_gsm.message_of(row.tobytes()))
    for row in ends:
        source.message_port_pub(pmt.intern("out"), um_gsm.message_of(row.tobytes()))
    end = time.monotonic() + 120
    while any(sum(octets == LAST for octets in sink.octets.values()) < slots for sink in sinks) and time.monotonic() < end:
        time.sleep(0.05)
    graph.stop()
    graph.wait()
    if time.monotonic() >= end:
        sys.exit("receiver: a flow graph did not say its last messages in 120 s")
    return {key: octets for sink in sinks for key, octets in sink.octets.items() if octets != LAST}


def joined(graph, sinks, source, *blocks):
    """Connects a chain of blocks, each with its ports, to a source of bursts and to a sink."""
    sink = Kept()
    sinks.append(sink)
    graph.kept += [sink, *(block for block, _, _ in blocks)]
    before, port = source, "out"
    for block, enters, leaves in (*blocks, (sink, "in", "")):
        graph.msg_connect(before, port, block, enters)
        before, port = block, leaves


def demapped(graph, source, sinks, slots, *between, drop=gsm.dummy_burst_filter):
    """gr-gsm's filter and demappers, and then these blocks."""
    for slot in slots:
        demapper = gsm.gsm_sdcch8_demapper(slot) if slot else gsm.gsm_bcch_ccch_demapper(0)
        chain = [(drop(), "in", "out"), (demapper, "bursts", "bursts")]
        joined(graph, sinks, source, *chain, *[(make(), "bursts", leaves) for make, leaves in between])


def by_decoder(make, slots=range(8)):
    return lambda graph, source, sinks: demapped(graph, source, sinks, slots, (make, "msgs"))


def by_slots(words, erasures):
    return lambda graph, source, sinks: joined(
        graph, sinks, source, (um_gsm.slot_decoder(COMBINATIONS, words=words, erasures=erasures), "bursts", "msgs"))


CHAINS = {
    "gr-gsm": (by_decoder(gsm.control_channels_decoder), "hard"),
    "decoder, 1 word": (by_decoder(lambda: um_gsm.control_channels_decoder(1, 0)), "hard"),
    "decoder, 16 words, 4 E": (by_decoder(um_gsm.control_channels_decoder), "hard"),
    "slots, 16 words, 4 E": (by_slots(16, 4), "hard"),
    "slots, 64 words, 4 E": (by_slots(64, 4), "hard"),
    "soft bits: slots, 1 word": (by_slots(1, 0), "soft"),
    "soft bits: slots, 16 words, 4 E": (by_slots(16, 4), "soft"),
}


def tried(heard, names):
    """For each chain how many messages are right and wrong, and the processor time that it took."""
    results = {}
    for name in names:
        connect, kind = CHAINS[name]
        rows = getattr(heard, kind)
        ends = last_blocks(rows, heard.tsc, kind == "soft")
        begun = time.process_time()
        messages = said(rows, connect, ends, 8 if name.startswith(("sl", "so")) else 1)
        spent = time.process_time() - begun
        results[name] = *heard.counts(messages), spent
    return results


def stream(version, frame, uplink):
    """libosmogsm's key stream."""
    bits = numpy.zeros(114, numpy.uint8)
    both = (None, bits.ctypes) if uplink else (bits.ctypes, None)
    ctypes.CDLL("libosmogsm.so.18").osmo_a5(version, KEY, ctypes.c_uint32(frame), *both)
    return bits


def ciphered(rows, version, since, uplink, is_soft):
    """The bursts of time slot 1, ciphered from a frame on; as uplink, which follows the downlink by fifteen frames."""
    rows = rows[rows[:, 3] == 1].copy()
    for row, frame in zip(rows, frames_of(rows)):
        if uplink:
            frame += 15
            row[4], row[8:12] = UPLINK >> 8, list(int(frame).to_bytes(4, "big"))
        if frame >= since and row[12] == 6:
            bits, values = stream(version, int(frame), uplink), row[HEADER + CODED]
            row[HEADER + CODED] = numpy.where(bits == 1, -values, values) if is_soft else values ^ bits
    return rows


def deciphered(version, make):
    """Two chains of blocks, one for plain bursts and one for ciphered ones."""

    def connect(graph, source, sinks):
        cipher = make[0](list(KEY), version)
        demapped(graph, source, sinks, [1], (make[1], "msgs"))
        demapped(graph, source, sinks, [1], (lambda: cipher, "bursts"), (make[1], "msgs"))

    return connect


def slot_deciphered(version):
    return lambda graph, source, sinks: joined(
        graph, sinks, source, (um_gsm.slot_decoder("sdcch8", 1, k_c=KEY, a5_version=version), "bursts", "msgs"))


def ciphers(heard):
    """What is wrong with ciphered bursts: a third of them stays plain, as before CIPHERING MODE COMMAND."""
    sent = {key: octets for key, octets in heard.sent.items() if key[0] == 1}
    since = FIRST + CYCLE + (max(frame for _, frame in sent) - FIRST - CYCLE) // 3
    wrong = []
    for version in (1, 3):
        for uplink in (False, True):
            sent_here = {(1, frame + 15 * uplink): octets for (_, frame), octets in sent.items()}
            # a block that is ciphered in part may be received or not
            wanted = {key: octets for key, octets in sent_here.items() if key[1] + 3 < since or key[1] >= since}
            hard, soft = ciphered(heard.hard, version, since, uplink, False), ciphered(heard.soft, version, since, uplink, True)
            chains = {
                "gr-gsm": (hard, deciphered(version, (gsm.decryption, gsm.control_channels_decoder)), False),
                "um's decryption and decoder": (hard, deciphered(version, (um_gsm.decryption, um_gsm.control_channels_decoder)), False),
                "um's slot": (hard, slot_deciphered(version), False),
                "um's slot, soft bits": (soft, slot_deciphered(version), True),
            }
            if gsm_soft:
                make = gsm_soft.decryption, gsm_soft.control_channels_decoder
                chains["gr-gsm with soft bits"] = soft, deciphered(version, make), True
            counts = []
            for name, (rows, connect, is_soft) in chains.items():
                last = last_blocks(heard.hard, heard.tsc, is_soft)
                ends = [ciphered(last, version, 1 << 30, uplink, is_soft)]
                last[:, 8:12] = (last[:, 8:12].copy().view(">u4") + CYCLE).astype(">u4").view(numpy.uint8)
                ends.append(ciphered(last, version, 0, uplink, is_soft))
                messages = said(rows, connect, numpy.concatenate(ends), 1)
                counts.append(sum(messages.get(key) == octets for key, octets in wanted.items()))
                others = sum(sent_here.get(key) != octets for key, octets in messages.items())
                if others or counts[-1] < counts[2 if len(counts) == 4 else 0]:
                    wrong.append(f"A5/{version}, {'up' if uplink else 'down'}link: {name}: {counts[-1]} of {len(wanted)}, {others} wrong")
            print(f"receiver: A5/{version}, {'up' if uplink else 'down'}link, of {len(wanted)} blocks in fading: gr-gsm {counts[0]}, um's "
                  f"decoder {counts[1]}, slot {counts[2]}, with soft bits {counts[3]}", flush=True)
    return wrong


def decoded(heard):
    """What um-decode says of gr-gsm's file of the bursts, by slot and frame."""
    messages = {}
    for mode, slots in (("BCCH", [0]), ("SDCCH8", range(1, 8))):
        for slot in slots:
            command = [sys.executable, "-m", "um.decode", "-m", mode, "-t", str(slot), heard.file]
            lines = subprocess.run(command, stdout=subprocess.PIPE, text=True, check=True).stdout.splitlines()
            messages.update({(slot, int(line.split()[0])): bytes.fromhex(line.split(":")[1]) for line in lines})
    return messages


# what grgsm_decode of Debian 12 lacks, and then the program
PLAIN = """import runpy, sys
from gnuradio import network, pdu
pdu.socket_pdu = network.socket_pdu
sys.argv[0] = "/usr/bin/grgsm_decode"
runpy.run_path(sys.argv[0], run_name="__main__")"""


def unchanged(heard, folder):
    """What is wrong with the messages of Debian's grgsm_decode, with its blocks and with those of um_gsm, on the samples of the cell."""
    file, counts, wrong = f"{folder}/samples", [], []
    numpy.pad(heard.samples, (0, int(RATE))).tofile(file)
    for program in (["-c", PLAIN], ["-m", "um_gsm", "/usr/bin/grgsm_decode"]):
        messages = {}
        for mode, slot in (("BCCH", 0), ("SDCCH8", 1)):
            words = ["-c", file, "-s", str(RATE), "-m", mode, "-t", str(slot), "-v"]
            lines = subprocess.run([sys.executable, *program, *words], capture_output=True, text=True, check=True).stdout.splitlines()
            lines = [line for line in lines if ":  " in line]
            messages.update({(slot, int(line.split()[0])): bytes.fromhex(line.split(":")[1]) for line in lines})
        right, others = heard.counts(messages)
        counts.append(right)
        if others or right < counts[0]:
            wrong.append(f"grgsm_decode by {program[1][:6]}: {right} right, {others} wrong")
    blocks = sum(key[0] < 2 for key in heard.sent)
    print(f"receiver: grgsm_decode, unchanged, of {blocks} blocks in fading: {counts[0]}, with um's blocks {counts[1]}", flush=True)
    return wrong


def soft_receiver(heard, folder, hard):
    """What is wrong with the receiver of gnuradio/gr-gsm: its bits are those of gr-gsm, and by its soft bits gr-gsm's own decoder and um's
    slot lose at most half of what they lose by hard bits."""
    if not gsm_soft:
        return []
    file, receiver = f"{folder}/soft.bursts", gsm_soft.receiver(4, [0], [], False, True)
    received(heard.samples, combined=False, ppm=0, awaited=[(0, -1)], quiet=5, file=file, receiver=receiver)
    rows = heard.read(file)
    bits = {tuple(row[3:12]): row[HEADER:] for row in heard.hard}
    both = [(row[HEADER:].view(numpy.int8), bits[tuple(row[3:12])]) for row in rows if tuple(row[3:12]) in bits]
    values, others = (numpy.array(part) for part in zip(*both))
    same = ((values < 0) == others)[values != 0].mean()
    wrong, blocks = [] if same > 0.9999 else [f"soft bits: {100 * same:.2f} % are those of the hard bits"], len(heard.sent)
    last = last_blocks(heard.hard, heard.tsc, True)
    decoder = said(rows, lambda *graph: demapped(
        *graph, range(8), (gsm_soft.control_channels_decoder, "msgs"), drop=gsm_soft.dummy_burst_filter), last, 1)
    slots = said(rows, by_slots(16, 4), last, 8)
    for name, messages, before in (("gr-gsm", decoder, "gr-gsm"), ("slots, 16 words, 4 E", slots, "slots, 16 words, 4 E")):
        right, others = heard.counts(messages)
        share = 100 - 100 * right / blocks
        print(f"receiver: by the soft bits of the patched receiver: {name}: {share:.1f} % lost, {others} wrong", flush=True)
        if others or 2 * (blocks - right) > blocks - hard[before][0]:
            wrong.append(f"soft bits, {name}: {others} wrong, or more than half of the losses of hard bits")
    return wrong


def main():
    with tempfile.TemporaryDirectory() as folder:
        heard = Heard("tu50", 4, 10, 7, folder)
        blocks = len(heard.sent)
        results = tried(heard, CHAINS)
        wrong, before = [], 0
        for name, (right, others, _) in results.items():
            print(f"receiver: {name}: {100 - 100 * right / blocks:.1f} % of {blocks} blocks lost in fading (TU50) at 10 dB, {others} wrong")
            if others or name != "decoder, 1 word" and right < before:
                wrong.append(f"{name}: {others} wrong, or fewer than the chain before")
            before = max(before, right) if name != "decoder, 1 word" else before
        messages = decoded(heard)
        right, others = heard.counts(messages)
        print(f"receiver: um-decode on gr-gsm's file of the bursts: {100 - 100 * right / blocks:.1f} % lost, {others} wrong")
        if others or right < results["slots, 16 words, 4 E"][0]:
            wrong.append("um-decode: wrong, or fewer than by the blocks of GNU Radio")
        wrong += ciphers(heard) + unchanged(heard, folder) + soft_receiver(heard, folder, results)
    for text in wrong:
        print("receiver:", text)
    return bool(wrong)


def measure(channel, cycles, levels):
    for level in levels:
        totals, blocks = collections.defaultdict(lambda: [0, 0, 0.0]), 0
        for tsc in range(8):
            with tempfile.TemporaryDirectory() as folder:
                heard = Heard(channel, cycles, level, tsc, folder)
            blocks += len(heard.sent)
            for name, counts in tried(heard, CHAINS).items():
                totals[name] = [one + other for one, other in zip(totals[name], counts)]
        seconds = 8 * (cycles - 1) * CYCLE * 0.12 / 26
        for name, (right, others, spent) in totals.items():
            print(f"{channel} | {level:g} | {name} | {100 - 100 * right / blocks:.2f} % of {blocks} blocks, {others} wrong | "
                  f"{100 * spent / seconds:.0f} % of a processor", flush=True)


if __name__ == "__main__":
    sys.exit(measure(sys.argv[1], int(sys.argv[2]), map(float, sys.argv[3:])) if sys.argv[1:] else main())
