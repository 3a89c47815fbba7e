"""Arguments that do not fit: the error names the argument, its value and what was expected."""
import array
import ctypes
import unittest

from common import FILL, Case, numpy, um


class Refusals(Case):
    def test_octets(self):
        for wrong in (23, 7.5, "x" * 23, None, [1.5] * 23, memoryview(bytes(23)).cast("b")):
            self.refused(TypeError, ["octets", "expected 23 octets"], um.send_block, wrong, 7)
        for wrong in (set(range(23)), frozenset(range(23)), dict.fromkeys(range(23)), dict.fromkeys(range(23)).keys()):
            self.refused(TypeError, ["octets: " + type(wrong).__name__, "expected 23 octets"], um.send_block, wrong, 7)
        self.refused(ValueError, ["octets: 22 octets; expected 23"], um.send_block, bytes(22), 7)
        self.assertEqual(um.send_block(bytes(23), 7), um.send_block((ctypes.c_uint8 * 23)(), 7))
        self.refused(ValueError, ["octets[1]: 256; expected"], um.send_block, [0, 256], 7)
        self.refused(ValueError, ["octets[0]: -1; expected"], um.send_block, [-1], 7)

    def test_tsc(self):
        for wrong in (-1, 8, 256, 257, 2**40):
            self.refused(ValueError, [f"tsc: {wrong}; expected 0 to 7"], um.send_block, FILL, wrong)
        for wrong in ("7", 7.0, None):
            self.refused(TypeError, ["tsc", repr(wrong), "from 0 to 7"], um.send_block, FILL, wrong)

    def test_soft_values(self):
        for call in (um.receive_block, um.margin_block, lambda soft: um.receive_block_among(soft, 64)):
            self.refused(ValueError, ["bursts: 3 bursts; expected 4"], call, [[0] * 148] * 3)
            self.refused(ValueError, ["bursts[2]: 147 soft bits; expected 148"], call, [[0] * 148] * 2 + [[0] * 147, [0] * 148])
            self.refused(ValueError, ["bursts[0][1]: 300", "-127 to 127"], call, [[0, 300] + [0] * 146] * 4)
            self.refused(ValueError, ["bursts[3][9]: -128", "-127 to 127"], call, [[0] * 148] * 3 + [[0] * 9 + [-128] + [0] * 138])
            self.refused(TypeError, ["bursts[0][0]: float 0.5", "soft_from_llr"], call, [[0.5] * 148] * 4)
            self.refused(TypeError, ["bursts[0][0]: float nan"], call, [[float("nan")] * 148] * 4)
            self.refused(ValueError, ["bursts: 591 soft bits; expected 4 x 148"], call, bytes(591))
            self.refused(ValueError, ["bits", "soft_from_bits"], call, um.send_block(FILL, 7))
            hard = b"".join(um.send_block(FILL, 7))
            for form in (bytes, bytearray, list, lambda bits: array.array("b", bits), lambda bits: memoryview(bits).cast("b", (4, 148))):
                self.refused(ValueError, ["bursts: each value is 0 or 1", "soft_from_bits"], call, form(hard))
            self.refused(ValueError, ["bursts: each value is 0 or 1"], call, bytes(591) + b"\1")
            self.refused(TypeError, ["bursts[1][0]: float 0.5", "soft_from_llr"], call, [[1] * 148, [0.5] * 148, [0] * 148, [0] * 148])
            for wrong in ("abc", 5, None, object()):
                self.refused(TypeError, ["bursts: " + type(wrong).__name__, "expected 4 x 148"], call, wrong)
            self.refused(TypeError, ["bursts", "'d'", "soft_from_llr"], call, array.array("d", [0] * 592))
            self.refused(ValueError, ["(8, 74)", "expected 4 x 148"], call, memoryview(bytes(592)).cast("b", (8, 74)))

    @unittest.skipUnless(numpy, "no numpy")
    def test_arrays(self):
        good = numpy.zeros((4, 148), numpy.int8)
        for shape in ((148, 4), (8, 74), (592, 1), (4, 147), (1, 4, 148)):
            self.refused(ValueError, ["bursts: int8 array of shape", "expected 4 x 148"], um.receive_block, numpy.zeros(shape, numpy.int8))
        hints = {"f4": "soft_from_llr", "f8": "soft_from_llr", ">f8": "soft_from_llr", ">i2": "clip", "i8": "clip"}
        hints.update({"u1": "soft_from_bits", "?": "soft_from_bits"})
        for form, hint in hints.items():
            name = str(numpy.dtype(form))
            self.refused(TypeError, ["bursts", name, "of int8", hint], um.receive_block, good.astype(form))
            self.refused(TypeError, ["bursts", name, "of int8", hint], um.receive_blocks, good[None].astype(form))
            self.refused(TypeError, ["bursts[0]", name, "of int8", hint], um.receive_block, list(good.astype(form)))
        self.refused(TypeError, ["octets: int64 array of shape (23,)", "uint8"], um.send_block, numpy.zeros(23, "i8"), 7)
        bits = um.send_blocks(numpy.zeros((2, 23), "u1"), 7).astype("i1")
        self.refused(ValueError, ["bursts", "bits", "soft_from_bits"], um.receive_block, bits[0])
        mixed = numpy.concatenate((um.soft_from_bits(bits), bits))
        for call in (um.receive_blocks, um.margin_blocks, lambda bursts: um.receive_blocks_among(bursts, 64)):
            self.refused(ValueError, ["bursts[0]: each value is 0 or 1", "soft_from_bits"], call, bits)
            self.refused(ValueError, ["bursts[2]: each value is 0 or 1"], call, mixed)
            self.refused(ValueError, ["bursts[1, 0]: each value is 0 or 1"], call, mixed.reshape(2, 2, 592))
        self.refused(ValueError, ["bursts[1]: each value"], um.receive_accesses, numpy.array([[0] * 88, [0, 1] * 44], "i1"), [0] * 6)
        self.refused(ValueError, ["bursts[0]: each value"], um.receive_syncs, numpy.ones((1, 148), "i1"))
        self.refused(ValueError, ["int8 array of shape (2, 148, 4)", ".. x 4 x 148"], um.receive_blocks, numpy.zeros((2, 148, 4), "i1"))
        many = numpy.zeros((5, 4, 148), numpy.int8)
        many[3, 2, 1] = -128
        self.refused(ValueError, ["bursts[3, 2, 1]: -128"], um.receive_blocks, many)
        self.refused(ValueError, ["bursts[3, 2, 1]: -128"], um.receive_blocks_among, many, 64)
        self.refused(ValueError, ["most: 65; expected 1 to 64"], um.receive_blocks_among, many, 65)
        self.refused(TypeError, ["octets", "uint8"], um.send_blocks, numpy.zeros((5, 23)), 7)
        self.refused(ValueError, ["octets", ".. x 23"], um.send_blocks, numpy.zeros((5, 22), "u1"), 7)
        self.refused(ValueError, ["tsc: 0 to 8; expected 0 to 7"], um.send_blocks, numpy.zeros((2, 23), "u1"), [0, 8])
        self.refused(ValueError, ["tsc", "each of 2 blocks"], um.send_blocks, numpy.zeros((2, 23), "u1"), [0, 1, 2])
        self.refused(TypeError, ["tsc"], um.send_blocks, numpy.zeros((2, 23), "u1"), 1.5)
        self.refused(ValueError, ["bursts[0, 3, 2, 1]: -128"], um.receive_blocks, many[None])
        self.refused(ValueError, ["bursts[87]: -128"], um.receive_accesses, numpy.array([0] * 87 + [-128], "i1"), [0] * 6)
        self.refused(ValueError, ["bsic: 5 bits; expected 6"], um.receive_accesses, numpy.zeros((2, 88), "i1"), [0] * 5)
        self.refused(ValueError, ["bsic", "six for each burst"], um.receive_accesses, numpy.zeros((2, 88), "i1"), numpy.zeros((3, 6), "u1"))
        self.refused(ValueError, ["words[0, 6]: 2; expected bits"], um.repair_words, numpy.eye(2, 224, 6, "u1") * 2)
        self.refused(TypeError, ["words: float64 array"], um.repair_words, numpy.zeros((2, 224)))
        self.refused(ValueError, ["octets", ".. x 23"], um.read_frames, numpy.zeros((2, 22), "u1"))
        self.refused(ValueError, ["channel: 7"], um.read_frames, numpy.zeros((2, 23), "u1"), 7)

    def test_hard_bits_of_bursts(self):
        """Soft bits that are 0 and 1 are refused also where a CRC would hold by chance."""
        for number in range(256):
            info = [number >> i & 1 for i in range(8)]
            self.refused(ValueError, ["burst: each value is 0 or 1"], um.receive_access, um.send_access(info, [1] * 6), [1] * 6)
        self.refused(ValueError, ["burst: each value is 0 or 1"], um.receive_sync, array.array("b", um.send_sync([1] * 25)))
        self.assertIsNone(um.receive_block(bytes(592)).accepted)
        # a lost burst with one weak bit is not taken for hard bits
        weak = um.soft_from_bits(um.send_block(FILL, 7))
        weak[2] = array.array("b", [0] * 70 + [1] + [0] * 77)
        self.assertEqual(FILL, um.receive_block(weak).accepted)

    def test_bursts_and_words(self):
        self.refused(ValueError, ["most: 0; expected 1 to 64"], um.receive_block_among, bytes(592), 0)
        self.refused(ValueError, ["info: 7 bits; expected 8"], um.send_access, bytes(7), bytes(6))
        self.refused(ValueError, ["bsic[5]: 2; expected a bit"], um.send_access, bytes(8), bytes(5) + b"\2")
        for wrong in (63, "111111", None, 1.5):
            words = f"bsic: {type(wrong).__name__} {wrong!r}; expected 6 bits, each 0 or 1"
            self.refused(TypeError, [words], um.send_access, [1] * 8, wrong)
            self.refused(TypeError, ["bsic", "expected 6 bits, each 0 or 1"], um.receive_access, bytes(88), wrong)
        self.refused(ValueError, ["info[1]: 256; expected 25 bits, each 0 or 1"], um.send_sync, [0, 256])
        self.refused(TypeError, ["info", "expected 8 bits, each 0 or 1"], um.send_access, memoryview(bytes(16)).cast("H"), bytes(6))
        self.refused(ValueError, ["burst[87]: -128"], um.receive_access, bytes(87) + b"\x80", bytes(6))
        self.refused(ValueError, ["burst: 87 soft bits; expected 88"], um.receive_access, bytes(87), bytes(6))
        self.refused(ValueError, ["info[0]: 3"], um.send_sync, b"\3" * 25)
        self.refused(ValueError, ["burst[0]: -128"], um.receive_sync, b"\x80" + bytes(147))
        self.refused(ValueError, ["word[3]: 2"], um.repair, b"\0\1\1\2" + bytes(220))

    def test_names(self):
        self.refused(ValueError, ["role: 'phone'; expected one of 'mobile', 'network'"], um.End, "phone")
        self.refused(ValueError, ["sapi: 1; expected 0 or 3"], um.End, "mobile", 1)
        self.refused(ValueError, ["channel: 5; expected um.SDCCH or um.SACCH"], um.End, "mobile", 0, 5)
        for channel in (8, -1, "sdcch", None, True):
            said = [f"channel: {channel!r}; expected a um.Channel"]
            self.refused(ValueError, said, um.next_block, "sdcch8", "downlink", 0, channel, 0, 0)
        if numpy:
            many = numpy.zeros(2, "u1")
            self.refused(ValueError, ["role: array([0, 0], dtype=uint8); expected one of 'mobile'"], um.End, many)
            self.refused(ValueError, ["sapi: array([0, 0], dtype=uint8); expected 0 or 3"], um.End, "mobile", many)
            self.refused(ValueError, ["channel: array([0, 0], dtype=uint8); expected um.SDCCH"], um.End, "mobile", 0, many)
            self.assertEqual(3, um.End("mobile", numpy.uint8(3)).sapi)
        self.refused(ValueError, ["frame.kind: 'xx'; expected one of 'i', 'rr'"], um.write_frame, um.Frame("xx"))
        self.refused(ValueError, ["frame.ns: 8; expected 0 to 7"], um.write_frame, um.Frame("i", ns=8, info=b"a"))
        self.refused(ValueError, ["frame.info: 21 octets; expected at most 20 on SDCCH"], um.write_frame, um.Frame("ui", info=bytes(21)))
        self.refused(ValueError, ["frame.info: 19 octets; expected at most 18"], um.write_frame, um.Frame("ui", info=bytes(19)), um.SACCH)
        self.refused(ValueError, ["frame.info: 0 octets; expected at least 1"], um.write_frame, um.Frame("i"))
        self.refused(ValueError, ["frame.info: 1 octets; expected none"], um.write_frame, um.Frame("rr", info=b"a"))
        self.refused(TypeError, ["frame.info: int 5"], um.write_frame, um.Frame("i", info=5))
        self.refused(TypeError, ["frame: dict {'kind': 'i'}; expected a um.Frame"], um.write_frame, {"kind": "i"})
        self.refused(TypeError, ["frame: str 'i'; expected a um.Frame"], um.write_frame, "i")
