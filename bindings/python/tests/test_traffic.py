"""Traffic channels and ciphering: blocks of FACCH recorded of osmo-bts with the octets that libosmocoding found (vectors/facch.out)."""
import copy
import pickle
import random

from common import FILL, ROOT, Case, digits, numpy, um

CHANNELS = {"full": "full_rate", "half0": "half_rate_0", "half1": "half_rate_1"}


def recorded():
    """The channel, the time slot, the octets, and the frame and the bits of each burst."""
    blocks = []
    for line in (ROOT / "vectors" / "facch.out").read_text().splitlines():
        words = line.split()
        if words[0] == "block":
            blocks.append((CHANNELS[words[1]], int(words[2]), bytes.fromhex(words[3]), []))
        elif words[0] != "#":
            blocks[-1][3].append((int(words[0]), digits(words[1])))
    return blocks


class Traffic(Case):
    def test_recorded(self):
        for channel, timeslot, octets, bursts in recorded():
            traffic = um.Traffic(channel, timeslot=timeslot, words=4)
            blocks = [traffic.take(frame, um.soft_from_bits(bits)) for frame, bits in bursts][-1]
            kind, block, flags, joined = blocks[-1]
            self.assertEqual(("facch", octets, bursts[0][0], um.Channel.FACCH, len(bursts)),
                             (kind, block.report.accepted, block.first, block.channel, block.heard))
            self.assertEqual((-1016, (-1016, 0)), (flags, um.stealing_flags(joined)))
            soft = [um.soft_from_bits(bits) for _, bits in bursts]
            self.assertEqual(joined, um.join_facch(soft))
            self.assertEqual([row.tobytes() for row in soft], traffic.bursts)
            self.assertEqual(octets, um.receive_block(joined).accepted)
            self.assertEqual(bursts[0][0], um.next_facch(channel, "downlink", bursts[0][0]))
            place = um.place_traffic(channel, "downlink", bursts[-1][0])
            self.assertEqual(um.place_traffic(channel, "downlink", bursts[0][0]).begins, place.ends)
            # written into the same halves the bursts are as they were; elsewhere only these halves are written
            sent, bits = um.send_block(octets, 5), [burst for _, burst in bursts]
            self.assertEqual(bits, um.steal_facch(sent, bits))
            stolen = [um.soft_from_bits(row) for row in um.steal_facch(sent, [bytes(148)] * len(bits))]
            self.assertEqual([um.soft_from_bits(row).tobytes() for row in sent], um.join_facch(stolen))
        self.assertEqual(52, len(recorded()))

    def test_one_burst_inverted(self):
        """The third of the bursts that carry a block is inverted and stronger: erased as it was sent, the block is received."""
        for channel, timeslot, octets, bursts in recorded()[::9]:
            soft = [um.soft_from_bits(bits) for _, bits in bursts]
            count, wrong = len(soft), [0] * len(soft)
            wrong[2] = 26
            self.assertEqual((octets, 1, um.Erasure(None, (0,) * count)),
                             tuple(x if at else x.accepted for at, x in enumerate(um.receive_facch_erasing(soft, 1, count))))
            soft = [[-bit if at == 2 else int(bit / 2) for bit in row] for at, row in enumerate(soft)]
            self.assertIsNone(um.receive_facch_erasing(soft, 1, 0)[0].accepted)
            report, rank, erasure = um.receive_facch_erasing(soft, 1, 1)
            self.assertEqual((octets, 1, um.Erasure(2, tuple(wrong)), 26), (report.accepted, rank, erasure, report.wrong_training))
            traffic = um.Traffic(channel, timeslot=timeslot, words=1, erasures=1)
            block = [traffic.take(frame, row) for (frame, _), row in zip(bursts, soft)][-1][-1]
            self.assertEqual(("facch", octets, erasure), (block.kind, block.block.report.accepted, block.block.erasure))
            self.refused(ValueError, [f"erasures: {count + 1}; expected 0 to {count}"], um.receive_facch_erasing, soft, 1, count + 1)
        self.refused(ValueError, ["bursts: 7 bursts; expected 8 at full rate, or 6"], um.receive_facch_erasing, [[0] * 148] * 7, 1, 0)
        words = ["combination: 'tch_h'; for subchannel 0 or 1 expected 'tch_f' with time slot 4 or 5, or um.Traffic"]
        self.refused(ValueError, words, um.Slot, "tch_h", "downlink", 5)

    def test_missing_and_late(self):
        channel, timeslot, octets, bursts = recorded()[0]
        soft = [um.soft_from_bits(bits) for _, bits in bursts]
        frames = [frame for frame, _ in bursts]
        traffic = um.Traffic(channel, timeslot=timeslot, words=16, erasures=4, limit=20)
        for at in range(5):
            traffic.take(frames[at], soft[at])
        again = copy.copy(traffic)
        # its last bursts never came: a later frame ends it, or the end of the recording
        for blocks in (traffic.take(frames[0] + 26), again.end()):
            self.assertEqual([5], [block.block.heard for block in blocks if block.block.first == frames[0]])
        for reason, frame in (("doubled", frames[0] + 26), ("late", frames[0])):
            with self.assertRaises(um.Refused) as caught:
                traffic.take(frame, soft[0])
            self.assertEqual(reason, caught.exception.reason)
        traffic.restart()
        self.assertEqual("<um.Traffic full_rate, downlink, time slot 2>", repr(traffic))
        blocks = [traffic.take(frame, row) for frame, row in zip(frames, soft)][-1]
        self.assertEqual(octets, blocks[-1].block.report.accepted)

    def test_sent(self):
        """What a sender makes of recorded blocks, silence between them, is what a receiver reports; the halves are those recorded."""
        for channel, timeslot, octets, bursts in recorded():
            sender, traffic = um.TrafficSender(channel, tsc=5), um.Traffic(channel, timeslot=timeslot)
            first, last = bursts[0][0], bursts[-1][0]
            self.assertTrue(sender.facch(octets))
            self.assertFalse(sender.facch(octets))
            self.assertFalse(sender.speech([bytes(148)] * 4))
            self.assertIsNone(sender.burst(first - 1))
            again = um.TrafficSender.from_bytes(pickle.loads(pickle.dumps(sender)).to_bytes())
            self.assertEqual((1790, b"umO1", sender), (len(again.to_bytes()), again.to_bytes()[:4], again))
            sent = {frame: bits for frame in range(first, last + 1) if (bits := again.burst(frame)) is not None}
            self.assertEqual([frame for frame, _ in bursts], list(sent))
            block = [traffic.take(frame, um.soft_from_bits(bits)) for frame, bits in sent.items()][-1][-1]
            self.assertEqual(("facch", octets, -1016, first), (block.kind, block.block.report.accepted, block.flags, block.block.first))
            # written into the recorded bursts, the halves that were sent change nothing
            self.assertEqual([bits for _, bits in bursts], um.steal_facch(um.send_block(octets, 5), [bits for _, bits in bursts]))
            self.assertEqual(list(sent.values()), um.steal_facch(um.send_block(octets, 5), [bytes(148)] * len(bursts)))
            self.assertIsNone(again.burst(last + 26))
            with self.assertRaises(um.Refused) as caught:
                again.burst(first)
            self.assertEqual("late", caught.exception.reason)

    def test_sent_beside_speech(self):
        """FACCH goes before speech that waits; each burst has the halves of two blocks, and is written again if it is asked for again."""
        draw = random.Random(7)
        for channel, count in (("full_rate", 8), ("half_rate_0", 6), ("half_rate_1", 6)):
            sender, frame, given, sent = um.TrafficSender(channel, "uplink", 3), 0, [], []
            while len(given) < 40:
                place = um.place_traffic(channel, "uplink", frame)
                if place and place.begins is not None:
                    block = [bytearray(row) for row in um.send_block(bytes(draw.randrange(256) for _ in range(23)), 3)]
                    for row in block:
                        row[60] = row[87] = 0
                    given.append([bytes(row) for row in block])
                    self.assertTrue(sender.speech(given[-1]))
                    if len(given) % 3 == 0:
                        octets = bytes(draw.randrange(256) for _ in range(23))
                        self.assertTrue(sender.facch(octets))
                        given[-1] = um.send_block(octets, 3)
                bits = sender.burst(frame)
                self.assertEqual(bits, copy.deepcopy(sender).burst(frame))
                if place:
                    sent.append(bits)
                else:
                    self.assertIsNone(bits)
                frame += 1
            for at in range(len(given) - 2):
                soft = [um.soft_from_bits(row) for row in sent[4 * at : 4 * at + count]]
                self.assertEqual([um.soft_from_bits(row).tobytes() for row in given[at]], um.join_facch(soft))

    def test_saved(self):
        channel, timeslot, octets, bursts = recorded()[0]
        traffic = um.Traffic(channel, timeslot=timeslot, words=4, limit=20)
        for frame, bits in bursts[:-1]:
            traffic.take(frame, um.soft_from_bits(bits))
        again = um.Traffic.from_bytes(traffic.to_bytes())
        self.assertEqual((1809, b"umC1", traffic), (len(again.to_bytes()), again.to_bytes()[:4], again))
        self.assertEqual(octets, again.take(bursts[-1][0], um.soft_from_bits(bursts[-1][1]))[-1].block.report.accepted)
        self.refused(ValueError, ["octets: begins with b'umT2'; expected b'umC1'"], um.Traffic.from_bytes, b"umT2" + bytes(1805))
        self.assertRaises(um.Refused, um.Traffic.from_bytes, b"umC1" + b"\xff" * 1805)
        self.assertRaises(um.Refused, um.TrafficSender.from_bytes, b"umO1" + b"\xff" * 1786)
        self.refused(ValueError, ["tsc: 8; expected 0 to 7"], um.TrafficSender, "full_rate", "uplink", 8)
        self.refused(ValueError, ["block[1][2]: 2; expected a bit"], um.TrafficSender("full_rate").speech,
                     [bytes(148), b"\0\0\2" + bytes(145), bytes(148), bytes(148)])
        self.assertEqual("<um.TrafficSender half_rate_1, uplink, tsc 3>", repr(um.TrafficSender("half_rate_1", "uplink", 3)))

    def test_nearly_lost(self):
        """Weak bursts of a block that a later frame ends do not make that frame's burst refused; a block of hard bits is refused."""
        traffic = um.Traffic("full_rate")
        for frame in range(3):
            traffic.take(frame, bytes(70) + b"\1" + bytes(77))
        bits = um.send_block(FILL, 5)
        # each burst is in two blocks
        self.assertEqual([3, 3], [block.block.heard for block in traffic.take(26, um.soft_from_bits(bits[0]))][:2])
        hard = um.Traffic("full_rate")
        for frame in range(3):
            hard.take(frame, bits[frame])
        before = hard.bursts
        self.refused(ValueError, ["burst: each value is 0 or 1"], hard.take, 3, bits[3])
        self.assertEqual(before, hard.bursts)

    def test_cipher(self):
        draw = random.Random(3)
        stream = bytes(draw.randrange(2) for _ in range(114))
        bits = um.send_block(FILL, 5)[0]
        ciphered = um.cipher_bits(bits, stream)
        places = [*range(3, 60), *range(88, 145)]
        self.assertEqual([bits[place] ^ bit for place, bit in zip(places, stream)], [ciphered[place] for place in places])
        others = [place for place in range(148) if place not in places]
        self.assertEqual([bits[place] for place in others], [ciphered[place] for place in others])
        self.assertEqual(bits, um.cipher_bits(ciphered, stream))
        self.assertEqual(um.soft_from_bits(bits), um.soft_cipher(um.soft_from_bits(ciphered), stream))
        if numpy:
            soft = numpy.array(um.soft_from_bits(ciphered), "i1")
            self.assertEqual(um.soft_from_bits(bits), um.soft_cipher(soft, numpy.frombuffer(stream, "u1")))

    def test_refusals(self):
        self.refused(ValueError, ["channel: 'tch_f'; expected one of 'full_rate'"], um.Traffic, "tch_f")
        self.refused(ValueError, ["limit: 79; expected 0 to 78"], um.Traffic, "full_rate", "uplink", 0, 1, 0, 79)
        self.refused(ValueError, ["bursts: 7 bursts; expected 8 at full rate, or 6 at half rate"], um.join_facch, [bytes(148)] * 7)
        self.refused(ValueError, ["block: 3 bursts; expected 4"], um.steal_facch, [bytes(148)] * 3, [bytes(148)] * 8)
        wrong = [bytes(148)] * 5 + [b"\0\0\2" + bytes(145)]
        self.refused(ValueError, ["bursts[5][2]: 2; expected a bit"], um.steal_facch, [bytes(148)] * 4, wrong)
        self.refused(ValueError, ["stream: 113 bits; expected 114"], um.cipher_bits, bytes(148), bytes(113))
        low = bytes(3) + b"\x80" + bytes(144)
        self.refused(ValueError, ["burst[3]: -128"], um.soft_cipher, low, bytes(114))
        self.refused(ValueError, ["burst[3]: -128"], um.Traffic("half_rate_1").take, 0, low)
        self.refused(ValueError, ["block[1][3]: -128"], um.stealing_flags, [bytes(148), low, bytes(148), bytes(148)])
        self.refused(ValueError, ["frame: 2715648; expected 0 to 2715647"], um.place_traffic, "full_rate", "uplink", um.FRAMES)
        self.assertIsNone(um.place_traffic("full_rate", "uplink", 12))
