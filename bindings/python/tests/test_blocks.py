"""Blocks, bursts, words and frames beside the vectors of the repository, which libosmocoding made, and beside worked values."""
import array
import concurrent.futures
import ctypes
import pickle

from common import FILL, ROOT, Case, digits, noisy, numpy, um
from um import blocks, effects, frames


class Vectors(Case):
    def test_all(self):
        out = iter((ROOT / "vectors" / "code.out").read_text().splitlines())
        lines = (ROOT / "vectors" / "code.in").read_text().splitlines()
        for line in lines:
            kind, first, *rest = line.split()
            if kind == "block":
                octets = bytes.fromhex(rest[0])
                bursts = um.send_block(octets, int(first))
                self.assertEqual([digits(next(out).split()[1]) for _ in range(4)], bursts)
                report = um.receive_block(um.soft_from_bits(bursts))
                self.assertEqual((octets, 57912, 0, 0, int(first)), report[:4] + (report.tsc,))
            elif kind == "rach":
                burst = um.send_access(digits(first), digits(rest[0]))
                self.assertEqual(digits(next(out).split()[2]), burst)
                report = um.receive_access(um.soft_from_bits(burst), digits(rest[0]))
                self.assertEqual((digits(first), 4572, 0, 0), report[:4])
            else:
                burst = um.send_sync(digits(first))
                self.assertEqual(digits(next(out).split()[1]), burst)
                report = um.receive_sync(um.soft_from_bits(burst))
                self.assertEqual((digits(first), 9906, 0, 0), report[:4])
        self.assertGreater(len(lines), 100)
        self.assertIsNone(next(out, None))


class Blocks(Case):
    def test_report(self):
        soft = um.soft_from_bits(um.send_block(FILL, 7))
        for place in (10, 20, 30):
            soft[1][place] = -soft[1][place]
        report = um.receive_block(soft)
        self.assertEqual((FILL, 57150, 0, 3, 7), report[:4] + (report.tsc,))
        crc = bytes.fromhex("2c4e540233")
        self.assertEqual(bytes(octet >> i & 1 for octet in FILL + crc for i in range(8)) + bytes(4), report.word)

    def test_second_word_holds(self):
        soft = um.soft_from_bits(um.send_block(FILL, 7))
        for row, place in ((0, 3), (0, 131), (1, 115), (1, 129)):
            soft[row][place] = -soft[row][place]
        self.assertIsNone(um.receive_block(soft).accepted)
        self.assertIsNone(um.receive_block_among(soft, 1)[0].accepted)
        report, rank = um.receive_block_among(soft, 2)
        self.assertEqual((FILL, 56896, 0, 4, 2), report[:4] + (rank,))

    def test_margin(self):
        margin = um.margin_block(um.soft_from_bits(um.send_block(FILL, 7)))
        self.assertEqual(7 * 254, margin.margin)
        self.assertEqual(0, um.margin_block([[0] * 148] * 4).margin)

    def test_repair(self):
        word = bytearray(184) + b"\1" * 40
        self.assertEqual((bytes(word), 0, 0), um.repair(word))
        right = bytes(word)
        word[184] = word[195] = 0
        self.assertEqual((right, 184, 12), um.repair(word))
        word[0] = 1
        self.assertIsNone(um.repair(word))

    def test_forms_of_soft_values(self):
        rows = noisy()
        wanted = um.receive_block(rows)
        self.assertEqual(FILL, wanted.accepted)
        flat = b"".join(row.tobytes() for row in rows)
        forms = [
            [list(row) for row in rows], tuple(rows), [row.tobytes() for row in rows], flat, bytearray(flat), array.array("b", flat),
            memoryview(flat).cast("b"), memoryview(flat).cast("b", (4, 148)), list(array.array("b", flat)), iter(rows),
            (ctypes.c_int8 * 592).from_buffer_copy(flat),
        ]
        if numpy:
            whole = numpy.frombuffer(flat, numpy.int8).reshape(4, 148)
            wide = numpy.zeros((8, 296), numpy.int8)
            wide[::2, ::2] = whole
            forms += [whole, whole.copy(), whole.ravel(), list(whole), wide[::2, ::2], whole.T.copy().T, list(whole.ravel())]
        for form in forms:
            self.assertEqual(wanted, um.receive_block(form))

    def test_threads(self):
        rows = noisy()
        with concurrent.futures.ThreadPoolExecutor(4) as pool:
            self.assertEqual({um.receive_block(rows)}, set(pool.map(um.receive_block, [rows] * 100)))

    def test_lying_memory(self):
        class Longer(bytes):
            def __len__(self):
                return 592

        self.refused(ValueError, ["10 soft bits"], um.receive_block, Longer(10))
        self.assertEqual(FILL, um.receive_block(um.soft_from_bits(um.send_block(Longer(FILL)[:23], 7))).accepted)
        self.refused(ValueError, ["octets: 5 octets; expected 23"], um.send_block, Longer(5), 7)

    def test_struct_sizes(self):
        sizes = [blocks._BLOCK, blocks._ACCESS, blocks._SYNC, blocks._MARGIN, blocks._REPAIR, frames._FRAME, effects._NOTICE]
        self.assertEqual([268, 40, 80, 460, 226, 28, 272], [form.size for form in sizes])


class Frames(Case):
    def test_readings(self):
        for first, reading in (
            ("030301", um.Frame("ui", cr=1)), ("037501", um.Frame("rnr", cr=1, nr=3, pf=1)), ("490601", "lpd"), ("000000", "ea"),
            ("010d01", "control"), ("010300", "el"), ("010055", "length"), ("010105", "length"), ("010001", "empty"), ("010303", "more"),
            ("015a090601", um.Frame("i", pf=1, ns=5, nr=2, info=b"\6\1")),
        ):
            octets = bytes.fromhex(first).ljust(23, b"\x2b")
            if isinstance(reading, um.Frame):
                self.assertEqual(reading, um.read_frame(octets))
                self.assertEqual(octets, um.write_frame(reading))
                self.assertEqual(bytes(2) + octets[:21], um.write_frame(reading, um.SACCH))
                self.assertEqual(reading, um.read_frame(b"\5\0" + octets[:21], um.SACCH))
            else:
                with self.assertRaises(um.NoFrame) as caught:
                    um.read_frame(octets)
                self.assertEqual(reading, caught.exception.reason)
                self.assertEqual(reading, pickle.loads(pickle.dumps(caught.exception)).reason)

    def test_format_b4(self):
        """System information 6 of a real cell, whose L2 pseudo length is 11."""
        si6 = bytes.fromhex("2d061e2bd962f220013e95787b2b2b2b2b2b2b")
        block = bytes.fromhex("05030303") + si6
        self.assertEqual((si6, block), (um.read_b4(block), um.write_b4(si6, b"\5\3")))
        self.assertEqual(bytes(2) + block[2:], um.write_b4(si6))
        self.assertEqual(si6, um.read_b4(block[:3] + b"\x13" + si6))
        self.assertEqual([None, None], [um.read_b4(block[:3] + b"\1" + si6), um.read_b4(block[:2] + b"\1\3" + si6)])
        self.refused(ValueError, ["info: 18 octets; expected 19"], um.write_b4, si6[1:])
