"""TDMA frames, the channels of a time slot and its receiver, beside worked values of 3GPP TS 45.002 and TS 44.018."""
import array
import copy
import pickle
import random
import weakref

from common import FILL, Case, um


def digits(number, places):
    """Bits, least significant first."""
    return [number >> i & 1 for i in range(places)]


class Tdma(Case):
    def test_times(self):
        for frame in (0, 1, 25, 26, 51, 1325, 1326, 2715647, 1234567):
            self.assertEqual((frame // 1326, frame % 26, frame % 51), um.time_of_frame(frame))
            self.assertEqual(frame, um.frame_of_time(frame // 1326, frame % 26, frame % 51))
        self.refused(ValueError, ["frame: 2715648; expected 0 to 2715647"], um.time_of_frame, 2715648)
        self.refused(ValueError, ["t2: 26; expected 0 to 25"], um.frame_of_time, 0, 26, 0)

    def test_sch(self):
        for frame, bsic in ((1, 0), (11, 63), (1326 * 1234 + 21, 37)):
            info = um.write_sch(bsic, frame)
            self.assertEqual((frame, bsic, bsic >> 3, bsic & 7), um.read_sch(info))
        # T2 in bits 19 to 23 of the five octets of TS 44.018, 9.1.30: 26 and more is of no frame
        self.assertEqual(25, len(info))
        self.refused(ValueError, ["frame: 12, with a T3 of 12; expected a T3 of 1, 11, 21, 31 or 41"], um.write_sch, 0, 12)
        self.refused(ValueError, ["bsic: 64; expected 0 to 63"], um.write_sch, 64, 1)

    def test_random_access(self):
        for ra in (0, 1, 0x80, 0xE3):
            self.assertEqual(digits(ra, 8), list(um.write_ra(ra)))
            self.assertEqual(ra, um.read_ra(um.write_ra(ra)))
        for bsic in (0, 1, 32, 63):
            self.assertEqual(digits(bsic, 6)[::-1], list(um.write_bsic(bsic)))
            self.assertEqual(bsic, um.read_bsic(um.write_bsic(bsic)))

    def test_places(self):
        # TS 45.002, clause 7, table 5: SDCCH/8 and its SACCH, BCCH and CCCH
        for combination, frame, place in (
            ("sdcch8", 0, (0, um.SDCCH, 0, 0)), ("sdcch8", 7, (4, um.SDCCH, 1, 3)), ("sdcch8", 32, (32, um.SACCH, 0, 0)),
            ("sdcch8", 51 + 33, (83, um.SACCH, 4, 1)), ("sdcch8", 48, None), ("bcch_ccch", 2, (2, um.Channel.BCCH, 0, 0)),
            ("bcch_ccch", 1, (1, um.Channel.SCH, 0, 0)), ("bcch_ccch", 6, (6, um.Channel.CCCH, 0, 0)),
        ):
            self.assertEqual(place, um.place_frame(combination, "downlink", 0, frame), (combination, frame))
        self.assertEqual(102, um.next_block("sdcch8", "downlink", 0, um.SDCCH, 0, 52))
        self.refused(ValueError, ["channel: RACH, subchannel 0; expected a channel of sdcch8 in the downlink"], um.next_block, "sdcch8",
                     "downlink", 0, um.Channel.RACH, 0, 0)
        self.refused(ValueError, ["combination: 'sdcch'; expected one of 'bcch_ccch'"], um.place_frame, "sdcch", "downlink", 0, 0)


class Slots(Case):
    def bursts(self, octets=FILL):
        return um.soft_from_bits(um.send_block(octets, 5))

    def test_blocks(self):
        slot = um.Slot("sdcch8")
        bursts = self.bursts()
        self.assertEqual([None] * 3, [slot.take(frame, bursts[frame]) for frame in range(3)])
        again = pickle.loads(pickle.dumps(slot))
        block = slot.take(3, bursts[3])
        self.assertEqual((FILL, 1, 0, um.SDCCH, 0, 4, (None, (0, 0, 0, 0))), (block.report.accepted, *block[1:]))
        self.assertEqual(block.report, um.receive_block(bursts))
        self.assertEqual(block, again.take(3, bursts[3]))
        self.assertEqual(again, slot)
        self.assertNotEqual(copy.copy(slot), um.Slot("sdcch8"))
        self.assertEqual((611, b"umT2"), (len(slot.to_bytes()), slot.to_bytes()[:4]))

    def test_subclass(self):
        class Named(um.Slot):
            name = "?"

        slot = Named("sdcch8")
        slot.name = "first"
        again = pickle.loads(pickle.dumps(um.Slot("sdcch8")))
        for other in (copy.copy(slot), copy.deepcopy(slot)):
            self.assertEqual((Named, "first", slot), (type(other), other.name, other))
        self.assertIs(again, weakref.ref(again)())

    def test_missing_and_late(self):
        slot, bursts = um.Slot("sdcch8", words=64, erasures=4), self.bursts()
        for frame in (0, 1, 3):
            block = slot.take(frame, bursts[frame])
        self.assertEqual((FILL, 3, 26), (block.report.accepted, block.heard, block.erasure.wrong_training[2]))
        before = slot.to_bytes()
        for reason, frame in (("doubled", 3), ("late", 2)):
            with self.assertRaises(um.Refused) as caught:
                slot.take(frame, bursts[0])
            self.assertEqual(reason, caught.exception.reason)
        self.assertIsNone(slot.take(4, bursts[0]))
        block = slot.take(8)
        self.assertEqual((4, 1, 1), (block.first, block.subchannel, block.heard))
        self.assertNotEqual(before, slot.to_bytes())

    def test_arguments(self):
        slot = um.Slot("sdcch8")
        self.refused(ValueError, ["burst: 147 soft bits; expected 148"], slot.take, 0, bytes(147))
        self.refused(ValueError, ["burst[5]: -128"], slot.take, 0, [0] * 5 + [-128] + [0] * 142)
        self.refused(ValueError, ["frame: -1; expected 0 to 2715647"], slot.take, -1, bytes(148))
        self.refused(ValueError, ["octets: begins with b'umS1'; expected b'umT2'"], um.Slot.from_bytes, b"umS1" + bytes(607))
        self.assertRaises(um.Refused, um.Slot.from_bytes, b"umT2" + b"\xff" * 607)
        hard = um.send_block(FILL, 5)
        for frame in range(3):
            slot.take(frame, hard[frame])
        before = slot.to_bytes()
        self.refused(ValueError, ["burst: each value is 0 or 1", "soft_from_bits"], slot.take, 3, hard[3])
        self.assertEqual(before, slot.to_bytes())

    def test_nearly_lost(self):
        # Of a block one burst came, all 0 but a single 1. The next block ends it, and each burst of it is taken.
        for words, erasures in ((1, 0), (16, 4)):
            slot, bursts = um.Slot("sdcch8", timeslot=3, words=words, erasures=erasures), self.bursts()
            self.assertIsNone(slot.take(518, bytes(70) + b"\1" + bytes(77)))
            ended = slot.take(522, bursts[0])
            self.assertEqual((518, None, 1), (ended.first, ended.report.accepted, ended.heard))
            self.assertEqual([None, None], [slot.take(522 + at, bursts[at]) for at in (1, 2)])
            self.assertEqual((522, FILL, 4), (lambda block: (block.first, block.report.accepted, block.heard))(slot.take(525, bursts[3])))

    def test_restart_end_and_limit(self):
        slot, bursts = um.Slot("sdcch8", words=16, erasures=4, limit=20), self.bursts()
        self.assertEqual((20, 78), (slot.limit, um.Slot("sdcch8").limit))
        self.refused(ValueError, ["limit: 79; expected 0 to 78"], um.Slot, "sdcch8", "downlink", 0, 1, 0, 79)
        self.assertIsNone(slot.end())
        # after a false frame number all true ones are late, until it is restarted
        slot.take(51000, bursts[0])
        self.assertRaisesRegex(um.Refused, "late", slot.take, 0, bursts[0])
        slot.restart()
        self.assertEqual(um.Slot("sdcch8", words=16, erasures=4, limit=20), slot)
        self.assertEqual([None] * 3, [slot.take(frame, bursts[frame]) for frame in range(3)])
        block = slot.end()
        self.assertEqual((0, 3, FILL), (block.first, block.heard, block.report.accepted))
        self.assertIsNone(slot.end())
        self.assertEqual(20, um.Slot.from_bytes(slot.to_bytes()).limit)
        self.refused(ValueError, ["octets: begins with b'umT1'; expected b'umT2'"], um.Slot.from_bytes, b"umT1" + bytes(606))

    def test_limit(self):
        """A block with a burst of another: its first word fails, and with a limit below its wrong training bits nothing more is tried."""
        bursts = um.soft_from_bits(um.send_block(FILL, 5), 60)
        bursts[1] = um.soft_from_bits(um.send_block(bytes(23), 2))[1]
        self.assertIsNone(um.receive_block(bursts).accepted)
        # the three best bursts have no wrong training bit, so each limit lets erasures be tried; with one wrong bit 0 does not
        for place, limit, wanted in ((None, 0, FILL), (70, 0, None), (70, 1, FILL)):
            rows = [array.array("b", row) for row in bursts]
            if place:
                rows[0][place] = -rows[0][place]
            slot = um.Slot("sdcch8", erasures=4, limit=limit)
            self.assertEqual(wanted, [slot.take(frame, rows[frame]) for frame in range(4)][3].report.accepted, (place, limit))

    def test_erasing(self):
        draw = random.Random(3)
        saved = 0
        for _ in range(60):
            octets = bytes(draw.randrange(256) for _ in range(23))
            soft = um.soft_from_bits(um.send_block(octets, 2), 40)
            lost = draw.randrange(4)
            for at in range(148):
                soft[lost][at] = draw.randrange(-127, 128)
            report, rank, (erased, wrong) = um.receive_block_erasing(soft, 1, 4)
            self.assertEqual((2, wrong), um.detect_training(soft))
            self.assertEqual(sum(wrong), report.wrong_training if erased is None else sum(wrong))
            if erased is not None and report.accepted:
                saved += 1
                self.assertEqual((octets, lost), (report.accepted, erased))
                self.assertIsNone(um.receive_block(soft).accepted)
            self.assertEqual(um.receive_block_among(soft, 8), um.receive_block_erasing(soft, 8, 0)[:2])
        self.assertGreater(saved, 10)
