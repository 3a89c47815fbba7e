"""The data link: sessions over a path that loses blocks, and its values."""
import copy
import pickle
import random
import weakref

from common import Case, um


def session(draw, channel, loss, slots=4000):
    """A mobile and a network, with messages on both links; the messages that arrived at each side, for each SAPI."""
    sides = [um.DataLink("mobile", channel), um.DataLink("network", channel)]
    sides[0].main(True)
    got = [{0: [], 3: []}, {0: [], 3: []}]
    opened = [set(), set()]
    sides[0].open(b"\1\2")
    air = [None, None]
    for slot in range(slots):
        arrived, air = air, [None, None]
        for who, link in enumerate(sides):
            told = link.take(arrived[1 - who]) if arrived[1 - who] else []
            if draw.random() < 0.02:
                sides[who] = link = um.DataLink.from_bytes(link.to_bytes())
            sent = link.next(b"\5\0")
            for sapi, notice in told + sent.notices:
                if notice.kind == "opened":
                    opened[who].add(sapi)
                    for number in range(3):
                        link.send(sapi, bytes([who, number]) * (30 + sapi))
                    if who == 0 and sapi == 0:
                        link.open_bare()
                if notice.kind == "got":
                    got[who][sapi].append(notice.message)
            air[who] = None if draw.random() < loss else sent.block
        if all(len(messages) == 3 for side in got for messages in side.values()):
            return slot, got
    return slots, got


class DataLinks(Case):
    def test_ui_frames_on_sacch_hold_no_timer(self):
        """A lost frame of SAPI 3 is repeated although each idle block of the other side has a UI frame of SAPI 0."""
        mobile, network = um.DataLink("mobile", um.SACCH), um.DataLink("network", um.SACCH)
        mobile.main(True)
        mobile.open_bare()
        frames, told = [], []
        for slot in range(30):
            up, down = mobile.next(), network.next()
            frame = um.read_frame(up.block, um.SACCH)
            frames += [frame.kind] if frame.kind == "i" else []
            told += mobile.take(network.unit(0, bytes(10)) if down.free else down.block)
            # the first I frame is lost
            told += network.take(mobile.unit(0, bytes(10)) if up.free else up.block) if frames != ["i"] or frame.kind != "i" else []
            if slot == 10:
                mobile.send(3, bytes(10))
        kinds = [(sapi, notice.kind) for sapi, notice in told if notice.kind != "unit"]
        self.assertEqual(kinds, [(3, "opened"), (3, "opened"), (3, "got"), (3, "acked")])
        self.assertEqual(frames, ["i", "i"])

    def run_slots(self, links, air, count, lost=False):
        """Some slots, in which the network's blocks may be lost; what each side reports, without the links' SAPI."""
        told = [[], []]
        for _ in range(count):
            arrived = list(air)
            for who, link in enumerate(links):
                if arrived[1 - who]:
                    told[who] += link.take(arrived[1 - who])
            for who, link in enumerate(links):
                sent = link.next()
                told[who] += sent.notices
                air[who] = None if lost and who else sent.block
        return [[(n.kind, n.message) if n.kind == "got" else n.kind for _, n in side] for side in told]

    def test_second_opening(self):
        """The mobile gives SAPI 3 up while the network's end is open, and opens it again: a new opening at both sides."""
        links = [um.DataLink(role, um.SACCH, 4, 6) for role in ("mobile", "network")]
        air = [None, None]
        links[0].main(True)
        links[0].open_bare()
        self.assertEqual([["opened"], ["opened"]], self.run_slots(links, air, 4))
        links[0].send(3, b"A")
        self.assertEqual([["closed"], [("got", b"A")]], self.run_slots(links, air, 40, lost=True))
        self.assertEqual(("closed", "open"), (links[0].state(3), links[1].state(3)))
        links[0].open_bare()
        self.assertEqual([["opened"], ["opened"]], self.run_slots(links, air, 3))
        links[0].send(3, b"B")
        links[1].send(3, b"C")
        told = self.run_slots(links, air, 10)
        self.assertEqual([{"acked", ("got", b"C")}, {"acked", ("got", b"B")}], [set(side) for side in told])
        links[0].send(3, b"D")
        self.assertEqual([["acked"], [("got", b"D")]], self.run_slots(links, air, 10))

    def test_local_release(self):
        """A local end release at the mobile alone, and the same information again: a new opening at both sides."""
        links = [um.DataLink(role, t200=2) for role in ("mobile", "network")]
        air = [None, None]
        links[0].open(b"id")
        self.assertEqual([["opened"], ["opened"]], self.run_slots(links, air, 4))
        links[0].send(0, b"A")
        self.assertEqual([["acked"], [("got", b"A")]], self.run_slots(links, air, 4))
        links[0].close_local(0)
        links[0].open(b"id")
        self.assertEqual([["opened"], ["opened"]], self.run_slots(links, air, 4))
        links[0].send(0, b"B")
        links[1].send(0, b"C")
        told = self.run_slots(links, air, 6)
        self.assertEqual([{"acked", ("got", b"C")}, {"acked", ("got", b"B")}], [set(side) for side in told])

    def test_collision(self):
        """The network releases SAPI 3 in the slot in which the mobile opens it again: a DM in the next slot refuses each."""
        links = [um.DataLink(role, um.SACCH, 4, 6) for role in ("mobile", "network")]
        air = [None, None]
        links[0].main(True)
        links[0].open_bare()
        self.assertEqual([["opened"], ["opened"]], self.run_slots(links, air, 4))
        links[0].open_bare()
        links[1].close(3)
        for kinds in ("sabm", "disc"), ("dm", "dm"):
            self.assertEqual([[], []], self.run_slots(links, air, 1))
            self.assertEqual(kinds, tuple(um.read_frame(block, um.SACCH).kind for block in air))
        self.assertEqual([["closed"], ["closed"]], self.run_slots(links, air, 1))

    def test_sessions(self):
        draw = random.Random(1)
        for channel in (um.SDCCH, um.SACCH):
            for loss in (0, 0.1, 0.1, 0.1):
                slots, got = session(draw, channel, loss)
                for who in range(2):
                    for sapi in (0, 3):
                        self.assertEqual([bytes([1 - who, number]) * (30 + sapi) for number in range(3)], got[who][sapi], (channel, loss))
                self.assertLess(slots, 3000)

    def test_free(self):
        mobile = um.DataLink("mobile", um.SACCH)
        sent = mobile.next(b"\7\1")
        self.assertEqual((b"\7\1", True, []), (sent.block[:2], sent.free, sent.notices))
        self.assertEqual(um.Frame("ui", sapi=0), um.read_frame(sent.block, um.SACCH)._replace(cr=0, pf=0))
        self.assertEqual(b"hi", um.read_frame(mobile.unit(0, b"hi", b"\7\1"), um.SACCH).info)

    def test_refusals(self):
        mobile = um.DataLink("mobile")
        self.assertRaisesRegex(um.Refused, "notopen", mobile.send, 0, b"a")
        self.assertRaisesRegex(um.Refused, "nocall", um.DataLink("network").open, b"a")
        self.assertRaisesRegex(um.Refused, r"noframe.*\(ea\)", mobile.take, bytes(23))
        self.refused(ValueError, ["t200: 0; expected 1 to 255"], um.DataLink, "mobile", um.SDCCH, 0)
        self.refused(ValueError, ["sapi: 1; expected 0 or 3"], mobile.close, 1)
        self.refused(ValueError, ["layer1: 1 octets; expected 2"], mobile.next, b"a")
        self.assertRaises(um.Refused, um.DataLink.from_bytes, b"umL2" + b"\xff" * 5220)
        self.assertRaisesRegex(ValueError, "begins with b'umL1'; expected b'umL2'", um.DataLink.from_bytes, b"umL1" + bytes(5218))
        self.assertRaisesRegex(ValueError, "5223 octets; expected 5224", um.DataLink.from_bytes, b"umL2" + bytes(5219))

    def test_idle(self):
        """After `closed` the answer to the other side's release waits for its slot; a SABM and its answer, a message, a release do too."""
        mobile, network = um.DataLink("mobile"), um.DataLink("network")
        self.assertEqual((True, True), (mobile.idle, network.idle))
        mobile.open(b"a")
        self.assertFalse(mobile.idle)
        network.take(mobile.next().block)
        self.assertEqual((False, False), (mobile.idle, network.idle))
        mobile.take(network.next().block)
        self.assertEqual((True, True), (mobile.idle, network.idle))
        network.send(0, b"message")
        self.assertFalse(network.idle)
        mobile.take(network.next().block)
        network.take(mobile.next().block)
        self.assertEqual((True, True), (mobile.idle, network.idle))
        mobile.close(0)
        told = network.take(mobile.next().block)
        self.assertEqual([(0, ("closed", "released"))], told)
        self.assertFalse(network.idle)
        told = mobile.take(network.next().block)
        self.assertEqual([(0, ("closed", "released"))], told)
        self.assertEqual((True, True), (mobile.idle, network.idle))
        mobile.open_bare()
        self.assertFalse(mobile.idle)

    def test_threads(self):
        """A data link that threads share is changed by one call at a time."""
        mobile, network = um.DataLink("mobile"), um.DataLink("network")
        mobile.open(b"a")
        pump = lambda count: (network.take(mobile.next().block), mobile.take(network.next().block))
        frame = lambda count: um.write_frame(um.Frame("i", cr=count & 1, ns=count >> 1 & 7, nr=count >> 4 & 7, info=bytes(count % 20 + 1)))
        take = lambda count: (mobile.take(frame(count)), network.take(frame(count)))
        send = lambda count: (mobile.send(0, bytes(count % 250 + 1)), network.send(0, bytes(count % 200 + 1)))
        local = lambda count: (mobile.close_local(3), mobile.open_bare(), network.close_local(3))
        self.together(1.5, pump, send, take, take, local)

    def test_subclass(self):
        class Named(um.DataLink):
            __slots__ = ("name",)

        mobile = Named("mobile")
        mobile.name = ["first"]
        for other in (copy.copy(mobile), copy.deepcopy(mobile)):
            self.assertEqual((Named, ["first"], mobile), (type(other), other.name, other))
        self.assertIs(mobile.name, copy.copy(mobile).name)
        self.assertIs(mobile, weakref.ref(mobile)())

    def test_values(self):
        mobile = um.DataLink("mobile")
        mobile.open(b"a")
        for other in (copy.copy(mobile), copy.deepcopy(mobile), pickle.loads(pickle.dumps(mobile))):
            self.assertEqual(mobile, other)
            other.close_local(0)
            self.assertNotEqual(mobile, other)
            self.assertEqual(("opening", "idle"), (mobile.state(0), other.state(0)))
        self.assertEqual((5224, b"umL2"), (len(mobile.to_bytes()), mobile.to_bytes()[:4]))
        self.assertEqual("<um.DataLink mobile, SDCCH, SAPI 0 opening, SAPI 3 idle>", repr(mobile))
