"""um-decode: the recordings that it reads, what it says of them, and what it refuses."""
import contextlib
import io
import os
import re
import struct
import sys
import tempfile
import unittest
from unittest import mock

from common import ROOT, Case, numpy, um
from um import decode
from um.gsmtap import Header
from um.recordings import Recording

VECTORS = ROOT / "vectors"
KEY = "1EF00BAB3BAC7002"
try:
    from um.a5 import Cipher

    CIPHER = Cipher(1, bytes.fromhex(KEY))
except OSError:  # no libosmogsm here
    CIPHER = None


def run(*words, data=b""):
    """What um-decode prints, and what it says besides."""
    out, said = io.StringIO(), io.StringIO()
    stdin = mock.Mock(buffer=io.BytesIO(data))
    with mock.patch.object(sys, "stdin", stdin), contextlib.redirect_stdout(out), contextlib.redirect_stderr(said):
        try:
            decode.main(list(words))
        except SystemExit as end:
            said.write(str(end.code))
    return out.getvalue(), said.getvalue()


def messages(text):
    """The octets of each message by its frame number."""
    return {int(line.split()[0]): bytes.fromhex(line.partition(":")[2]) for line in text.splitlines()}


def sent(timeslot):
    """The octets of the vectors by the frame of the first burst, but for the block that gr-gsm's decoder loses too."""
    heads = [line.split() for line in (VECTORS / "grgsm.in").read_text().splitlines() if line.startswith("# time slot")]
    data = [line.split()[-1] for line in (VECTORS / "grgsm.out").read_text().splitlines()]
    return {int(head[5]): bytes.fromhex(octets) for head, octets in zip(heads, data) if int(head[3]) == timeslot}


def record(frame, values, timeslot=0, arfcn=0, kind=6):
    """A burst as gr-gsm writes it."""
    return bytes.fromhex("07060a00000000a40100") + Header(timeslot, arfcn, 0, 0, frame, kind).octets() + bytes(values)


def ethernet(payload):
    """A packet of UDP, as a capture of a loopback device has it."""
    udp = struct.pack(">HHHH", 5702, 5802, 8 + len(payload), 0) + payload
    return bytes(12) + b"\x08\0" + struct.pack(">BBHHHBBH4s4s", 0x45, 0, 20 + len(udp), 0, 0, 64, 17, 0, b"\x7f\0\0\1", b"\x7f\0\0\1") + udp


def pcap(packets):
    return struct.pack("<IHHiIII", 0xA1B2C3D4, 2, 4, 0, 0, 65535, 1) + b"".join(
        struct.pack("<IIII", 0, 0, len(packet), len(packet)) + packet for packet in packets)


def pcapng(packets):
    def block(kind, body):
        body += bytes(-len(body) % 4)
        return struct.pack("<II", kind, len(body) + 12) + body + struct.pack("<I", len(body) + 12)

    blocks = [block(0x0A0D0D0A, struct.pack("<IHHq", 0x1A2B3C4D, 1, 0, -1)), block(1, struct.pack("<HHI", 1, 0, 0))]
    return b"".join(blocks + [block(6, struct.pack("<IIIII", 0, 0, 0, len(packet), len(packet)) + packet) for packet in packets])


@unittest.skipUnless(VECTORS.exists(), "no vectors here")
class Decode(Case):
    def setUp(self):
        self.path = str(VECTORS / "grgsm.bursts")
        self.rows = [self.data[at : at + 174] for at in range(0, len(self.data), 174)]

    @property
    def data(self):
        return (VECTORS / "grgsm.bursts").read_bytes()

    def test_burst_file(self):
        self.assertEqual(sent(0), messages(run(self.path)[0]))
        wanted = sent(1)
        self.assertEqual(wanted.pop(220438) and wanted, messages(run("-m", "SDCCH8", "-t", "1", "-b", self.path)[0]))
        self.assertEqual({**sent(0)}, messages(run("-", data=self.data)[0]))

    def test_lines(self):
        self.assertEqual("220424 340054:  22 ad e0", run(self.path)[0][:24])  # COUNT: T1 166, T3 2, T2 22
        bits = run("-p", self.path)[0].splitlines()[1]
        row = next(row for row in self.rows if row[13] == 0 and int.from_bytes(row[18:22], "big") == 220424)
        self.assertEqual("220424 340054: " + "".join(map(str, row[29:86] + row[114:171])), bits)

    def test_doubled_and_late(self):
        doubled = [row for row in self.rows for _ in (0, 1)]
        text, said = run("-", data=b"".join(doubled))
        self.assertEqual(sent(0), messages(text))
        self.assertIn("left out 40 bursts that came twice and 0 whose", said)  # those of blocks
        # one frame number is false: eight bursts later the time slot begins anew, and no more than two blocks are lost
        slot = [row for row in self.rows if row[13] == 0 and row[22] == 6]
        false = slot[4][:18] + (400000).to_bytes(4, "big") + slot[4][22:]
        text, said = run("-", data=b"".join([*slot[:4], false, *slot[5:]]))
        got, wanted = messages(text), sent(0)
        self.assertEqual(set(list(wanted)[:1] + list(wanted)[3:]), set(got))
        self.assertIn("8 whose frame number had passed; began anew 1 times", said)

    def test_records(self):
        slot = [row for row in self.rows if row[13] == 0 and row[22] == 6]
        forms = {"bits": lambda bit: bit, "int8": lambda bit: 161 if bit else 95, "trx": lambda bit: 250 if bit else 5}
        for form, value in forms.items():
            data = b"".join(row[18:22] + bytes(map(value, row[26:])) for row in slot)
            self.assertEqual(sent(0), messages(run("--form", form, "-", data=data)[0]), form)

    def test_soft_bits_of_grgsm(self):
        soft = [row[:26] + bytes(129 if bit else 127 for bit in row[26:]) for row in self.rows]
        self.assertEqual(sent(0), messages(run("-", data=b"".join(soft))[0]))

    def test_trx_captures(self):
        slot = [row for row in self.rows if row[13] == 0 and row[22] == 6]
        head = [bytes([0]) + row[18:22] + b"\x0a" for row in slot]
        newer = [bytes([0x10]) + row[18:22] + b"\x0a" for row in slot]
        commands = [ethernet(b"CMD POWERON\0"), ethernet(b"IND CLOCK 220424\0")]
        for packets in ([ethernet(a + row[26:]) for a, row in zip(head, slot)], [ethernet(a + row[26:]) for a, row in zip(newer, slot)]):
            for capture in (pcap, pcapng):
                self.assertEqual(sent(0), messages(run("-", data=capture(commands + packets))[0]))
        # uplink, by soft bits, of both versions
        octets = bytes(range(23))
        for version, size in ((b"\0", 156), (b"\0", 158), (b"\x10", 159)):
            packets = []
            for later, burst in enumerate(um.send_block(octets, 5)):
                body = version + (15 + later).to_bytes(4, "big") + bytes([60, 0, 0]) + bytes(3 * (version != b"\0"))
                body += bytes(250 if bit else 3 for bit in burst)
                packets.append(ethernet(body + bytes(size - len(body))))
            self.assertEqual({15: octets}, messages(run("-m", "SDCCH8", "-", data=pcap(packets))[0]))

    @unittest.skipUnless(numpy, "no numpy here")
    def test_arrays(self):
        slot = [row for row in self.rows if row[13] == 0 and row[22] == 6]
        rows = numpy.zeros(len(slot), [("frame", "u4"), ("burst", "i1", 148)])
        rows["frame"] = [int.from_bytes(row[18:22], "big") for row in slot]
        rows["burst"] = [um.soft_from_bits(row[26:]) for row in slot]
        blocks = numpy.array([um.soft_from_bits(um.send_block(bytes([n] * 23), 2)) for n in range(3)], numpy.int8)
        with tempfile.TemporaryDirectory() as folder:
            path = os.path.join(folder, "a.npy")
            numpy.save(path, rows)
            self.assertEqual(sent(0), messages(run(path)[0]))
            for array in (blocks, blocks.reshape(3, 592)):
                numpy.save(path, array)
                self.assertEqual([f"block {n}:  " + bytes([n] * 23).hex(" ") for n in range(3)], run(path)[0].splitlines())
            numpy.save(path, blocks.astype(float))
            self.assertIn("it is a float64 array of shape (3, 4, 148); expected int8", run(path)[1])

    @unittest.skipUnless(CIPHER, "no libosmogsm here")
    def test_ciphered(self):
        octets = [bytes([n] * 23) for n in range(4)]
        data = b""
        for block, uplink in ((0, False), (1, False), (2, True), (3, True)):
            for later, burst in enumerate(um.send_block(octets[block], 5)):
                frame = 102 * (block // 2 + 1) + 51 * (block % 2) + 15 * uplink + later
                # the first block of each direction is plain
                stream = CIPHER.stream(frame, uplink) if block % 2 else bytes(114)
                coded = [bit ^ other for bit, other in zip(burst[3:60] + burst[88:145], stream)]
                values = [*burst[:3], *coded[:57], *burst[60:88], *coded[57:], *burst[145:]]
                data += record(frame, values, 2, 0x4000 if uplink else 0)
        text, _ = run("-m", "SDCCH8", "-t", "1-3", "-k", KEY, "-", data=data)
        self.assertEqual(dict(zip((102, 153, 219, 270), octets)), messages(text))

    def test_traffic_channels(self):
        """Blocks of FACCH that osmo-bts sent, each alone."""
        text = (VECTORS / "facch.out").read_text()
        for block in re.findall(r"^block (\w+) (\d) (\w+)\n((?:\d+ [01]{148}\n)+)", text, re.M):
            channel, timeslot, octets, rows = block
            frames = [row.split() for row in rows.splitlines()]
            data = b"".join(record(int(frame), map(int, bits), int(timeslot)) for frame, bits in frames)
            words = ("-m", "TCHF") if channel == "full" else ("-m", "TCHH", "-u", channel[-1])
            # the other halves of its bursts may be of other blocks
            self.assertEqual(bytes.fromhex(octets), messages(run(*words, "-t", timeslot, "-", data=data)[0]).get(int(frames[0][0])))
            # of the other half of a TCH/H it has no burst
            if channel != "full":
                other = run("-m", "TCHH", "-u", str(1 - int(channel[-1])), "-t", timeslot, "-", data=data)
                self.assertEqual("", other[0])

    def test_capture(self):
        with tempfile.TemporaryDirectory() as folder:
            path = os.path.join(folder, "out.pcapng")
            run("-o", path, self.path)
            with open(path, "rb") as file:
                capture = file.read()
        for octets in sent(0).values():
            self.assertEqual(1, capture.count(octets))

    def test_refused(self):
        for words, data, wanted in (
            ((), b"", "no FILE"),
            (("/nowhere",), b"", "/nowhere: No such file"),
            (("-t", "8", "-"), b"", "'8'; expected 0 to 7"),
            (("-t", "3-1", "-"), b"", "'3-1' is no range"),
            (("-k", "xx", "-"), b"", "'xx' is no key; expected hexadecimal"),
            (("-w", "65", "-"), b"", "'65'; expected 1 to 64"),
            (("-",), b"text of a file", "begins with 74657874206f6620, as no form of recording does"),
            (("-",), self.data[:1000], "record 6, the last one, has 130 octets; expected 174"),
            (("-",), self.data[:174] + b"x" + self.data[175:], "record 2: it begins with 78060a"),
            (("-",), record(2715648, bytes(148)), "record 1: frame 2715648; expected 0 to 2715647"),
            (("-",), record(1, b"\3" + bytes(147)), "record 1: bit 0 is 3; expected 0 or 1"),
            (("--form", "bits", "-"), bytes(100), "record 1, the last one, has 100 octets; expected 152"),
            (("-",), pcap([ethernet(b"CMD POWERON\0")]), "none of its 1 packets has a burst"),
            (("-",), pcap([ethernet(bytes(1))])[:20] + b"\x7f\0\0\0" + pcap([ethernet(bytes(1))])[24:], "packet 1 has the link type 127"),
            (("-t", "5", "-"), self.data, "no burst in time slot 5; the file has bursts of 0, 1"),
            (("-",), record(2, bytes(148)), "no message in 1 bursts"),
        ):
            with self.subTest(wanted):
                self.assertIn(wanted, run(*words, data=data)[1])

    def test_share(self):
        recording = Recording(self.path)
        items = iter(recording)
        for _ in range(50):
            next(items)
        self.assertEqual(0.5, recording.share)
        recording.close()
