"""The calls for many, beside the calls for one."""
import concurrent.futures
import unittest

from common import Case, numpy, um


@unittest.skipUnless(numpy, "no numpy")
class Arrays(Case):
    def setUp(self):
        generator = numpy.random.default_rng(1)
        self.octets = generator.integers(0, 256, (200, 23), dtype=numpy.uint8)
        self.codes = numpy.arange(200) % 8
        self.bursts = um.send_blocks(self.octets, self.codes)
        signal = um.soft_from_bits(self.bursts).astype(float) + generator.normal(0, 120, self.bursts.shape)
        self.soft = um.soft_from_llr(signal, scale=1)

    def test_send(self):
        for i in range(200):
            self.assertEqual(um.send_block(self.octets[i], self.codes[i]), [bytes(row) for row in self.bursts[i]])
        self.assertTrue((um.send_blocks(self.octets, 3)[0] == numpy.array([list(row) for row in um.send_block(self.octets[0], 3)])).all())
        self.assertEqual((0, 4, 148), um.send_blocks(self.octets[:0], 3).shape)

    def test_receive(self):
        reports = um.receive_blocks(self.soft)
        among = um.receive_blocks_among(self.soft, 64)
        self.assertTrue((um.receive_blocks(self.soft.reshape(200, 592)) == reports).all())
        self.assertTrue((um.receive_blocks(self.soft[::-1])[::-1] == reports).all())
        self.assertEqual(0, len(um.receive_blocks(self.soft[:0])))
        for i in range(200):
            for report, one in ((reports[i], um.receive_block(self.soft[i])), (among[i], um.receive_block_among(self.soft[i], 64)[0])):
                self.assertEqual(one.accepted, bytes(report["octets"]) if report["accepted"] else None)
                self.assertEqual(one.word, bytes(report["word"]))
                self.assertEqual(one[1:4] + (one.tsc,), tuple(report[["metric", "wrong_training", "wrong_coded", "tsc"]]))
            self.assertEqual(um.receive_block_among(self.soft[i], 64)[1], among[i]["rank"])
        held = among["accepted"]
        self.assertTrue((among["octets"][held] == self.octets[held]).all())
        self.assertGreater(held.sum(), reports["accepted"].sum())

    def test_leading_axes(self):
        grid = self.soft.reshape(10, 4, 5, 4, 148)
        reports = um.receive_blocks(self.soft)
        self.assertTrue((um.receive_blocks(grid) == reports.reshape(10, 4, 5)).all())
        self.assertTrue((um.receive_blocks(grid.transpose(2, 0, 1, 3, 4)) == reports.reshape(10, 4, 5).transpose(2, 0, 1)).all())
        self.assertEqual(((), reports[3]), (um.receive_blocks(self.soft[3]).shape, um.receive_blocks(self.soft[3])[()]))
        self.assertEqual((2, 0), um.receive_blocks_among(numpy.zeros((2, 0, 592), "i1"), 3).shape)
        octets, codes = self.octets.reshape(10, 20, 23), self.codes.reshape(10, 20)
        self.assertTrue((um.send_blocks(octets, codes) == self.bursts.reshape(10, 20, 4, 148)).all())
        self.assertEqual((4, 148), um.send_blocks(self.octets[0], 3).shape)

    def test_new_axis(self):
        """An axis of one that x[None] adds has a stride of 0."""
        burst, access, word = self.soft[0, 0], self.soft[0, 0, :88], numpy.zeros(224, "u1")
        for call, item in (
            (um.receive_blocks, self.soft[0]), (um.receive_blocks, self.soft[0].reshape(592)), (um.margin_blocks, self.soft[0]),
            (lambda soft: um.receive_blocks_among(soft, 4), self.soft[0]), (um.receive_syncs, burst), (um.repair_words, word),
            (lambda soft: um.receive_accesses(soft, [0] * 6), access), (um.read_frames, self.octets[0]),
            (lambda octets: um.send_blocks(octets, 1), self.octets[0]),
        ):
            self.assertEqual(call(item).tobytes(), call(item[None]).tobytes())

    def test_masks(self):
        """What a mask hides is not taken for values."""
        ma = numpy.ma.masked_array
        for name, call, values in (
            ("bursts", um.receive_blocks, self.soft), ("bursts", um.receive_block, self.soft[0]),
            ("bursts", um.receive_block, list(map(ma, self.soft[0]))),
            ("octets", lambda octets: um.send_blocks(octets, 1), self.octets),
            ("octets", lambda octets: um.send_block(octets, 1), self.octets[0]),
            ("values", um.soft_from_llr, self.soft), ("bits", um.soft_from_bits, self.bursts), ("sbits", um.soft_from_sbits, self.soft),
            ("octets", um.soft_from_trx, self.octets),
        ):
            masked = values if type(values) is list else ma(values)
            self.refused(TypeError, [name, "a masked array; expected one without a mask"], call, masked)
        self.refused(TypeError, ["sbits: memoryview of format '4x'"], um.soft_from_sbits, memoryview(numpy.zeros(4, "V4")))

    def test_margins(self):
        margins = um.margin_blocks(self.soft[:50])
        for i in range(50):
            one = um.margin_block(self.soft[i])
            self.assertEqual((one.margin, one.word, one.next), (margins[i]["margin"], bytes(margins[i]["word"]), bytes(margins[i]["next"])))

    def test_bursts(self):
        generator = numpy.random.default_rng(2)
        info, codes = generator.integers(0, 2, (60, 8)).astype("u1"), generator.integers(0, 2, (60, 6)).astype("u1")
        access = numpy.array([list(um.send_access(info[i], codes[i])) for i in range(60)])
        soft = um.soft_from_llr((1 - 2 * access) * 64 + generator.normal(0, 70, access.shape), scale=1)
        for bsic, reports in ((codes, um.receive_accesses(soft, codes)), ([codes[0]] * 60, um.receive_accesses(soft, list(codes[0])))):
            for i in range(60):
                self.same(um.receive_access(soft[i], bsic[i]), reports[i])
        self.assertGreater(um.receive_accesses(soft, codes)["accepted"].sum(), 30)
        data = generator.integers(0, 2, (60, 25)).astype("u1")
        syncs = numpy.array([list(um.send_sync(row)) for row in data])
        soft = um.soft_from_llr((1 - 2 * syncs) * 64 + generator.normal(0, 60, syncs.shape), scale=1)
        reports = um.receive_syncs(soft.reshape(6, 10, 148))
        for i in range(60):
            self.same(um.receive_sync(soft[i]), reports[i // 10, i % 10])
        self.assertTrue((reports["info"].reshape(60, 25)[reports["accepted"].ravel()] == data[reports["accepted"].ravel()]).all())

    def same(self, one, report):
        self.assertEqual(one.accepted, bytes(report["info"]) if report["accepted"] else None)
        self.assertEqual((one.word, *one[1:4]), (bytes(report["word"]), *report[["metric", "wrong_training", "wrong_coded"]].tolist()))

    def test_repairs(self):
        words = um.receive_blocks(um.soft_from_bits(self.bursts))["word"][:, :224].copy()
        for i in range(200):
            words[i, i : i + 1 + i % 15] ^= 1
        repairs = um.repair_words(words)
        for i in range(200):
            one = um.repair(words[i])
            self.assertEqual(one is not None, repairs[i]["repaired"])
            if one:
                self.assertEqual((one.first, one.span, one.word), (repairs[i]["first"], repairs[i]["span"], bytes(repairs[i]["word"])))
        self.assertEqual((0,), um.repair_words(words[:0]).shape)

    def test_frames(self):
        octets = self.octets.copy()
        octets[:150, 0], octets[:150, 2] = 1, octets[:150, 2] & 0x3C | 1
        for channel in (um.SDCCH, um.SACCH):
            frames = um.read_frames(octets, channel)
            for i in range(200):
                try:
                    one = um.read_frame(octets[i], channel)
                except um.NoFrame as error:
                    self.assertEqual(("", error.reason), (frames[i]["kind"], frames[i]["unread"]))
                else:
                    info = bytes(frames[i]["info"])[: frames[i]["count"]]
                    self.assertEqual((*one[:7], one.info, ""), (*frames[i].tolist()[:7], info, frames[i]["unread"]))
        self.assertGreater((um.read_frames(octets)["kind"] != "").sum(), 20)

    def test_threads(self):
        reports = um.receive_blocks(self.soft)
        with concurrent.futures.ThreadPoolExecutor(4) as pool:
            for part in pool.map(um.receive_blocks, [self.soft] * 20):
                self.assertTrue((part == reports).all())

    def test_table(self):
        try:
            import pandas
        except ImportError:
            self.skipTest("no pandas")
        reports = um.receive_blocks(self.soft)
        table = pandas.DataFrame(reports[["metric", "wrong_coded", "tsc", "accepted"]])
        self.assertEqual((200, 4), table.shape)
        self.assertTrue((table["accepted"] == reports["accepted"]).all())
