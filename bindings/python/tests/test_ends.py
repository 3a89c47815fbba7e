"""Endpoints and sides."""
import copy
import pickle
import weakref

from common import Case, um


class Ends(Case):
    def test_threads(self):
        """Endpoints and sides that threads share are changed by one call at a time."""
        mobile, network = self.opened()
        send = lambda count: (mobile.send(bytes(count % 250 + 1)), network.send(bytes(count % 200 + 1)))
        frame = lambda count: um.write_frame(um.Frame("i", cr=count & 1, ns=count >> 1 & 7, nr=count >> 4 & 7, info=bytes(count % 20 + 1)))
        side = um.Side("network")
        take = lambda count: (mobile.take(frame(count)), network.take(frame(count)), side.take(frame(count)), side.timer(0))
        self.together(1, send, take, send, take)

    def test_subclass(self):
        class Named(um.End):
            def __init__(self, name):
                super().__init__("mobile")
                self.name = name

        end = Named("first")
        for other in (copy.copy(end), copy.deepcopy(end)):
            self.assertEqual((Named, "first", end), (type(other), other.name, other))
        self.assertEqual([end, None], [weakref.ref(end)(), weakref.ref(um.Side("mobile"))()])

    def opened(self, sapi=0, channel=um.SDCCH):
        mobile, network = um.End("mobile", sapi, channel), um.End("network", sapi, channel)
        answer = network.take((mobile.open_bare() if sapi else mobile.open(b"\1\2")).frames[0])
        self.assertEqual([("opened", b"" if sapi else b"\1\2")], answer.notices)
        self.assertEqual(([], [("opened", b"" if sapi else b"\1\2")]), mobile.take(answer.frames[0]))
        return mobile, network

    def test_session(self):
        for sapi, channel in ((0, um.SDCCH), (3, um.SDCCH), (3, um.SACCH)):
            mobile, network = self.opened(sapi, channel)
            message = bytes(range(100))
            frames, number = mobile.send(message).frames, 0
            while frames:
                effects = network.take(frames[0])
                number += 1
                last = mobile.take(effects.frames[0])
                frames = last.frames
            self.assertEqual(([("got", message)], [("acked", 1)]), (effects.notices, last.notices))
            self.assertEqual(6 if channel else 5, number)
            self.assertEqual([("unit", b"hi")], network.take(mobile.unit(b"hi").frames[0]).notices)
            self.assertEqual(23, len(mobile.idle().frames[0]))
            answer = network.take(mobile.close().frames[0])
            self.assertEqual([("closed", "released")], answer.notices)
            self.assertEqual([("closed", "released")], mobile.take(answer.frames[0]).notices)
            self.assertEqual(("closed", sapi, channel, "mobile"), (mobile.state, mobile.sapi, mobile.channel, mobile.role))

    def test_lost_frame(self):
        mobile, network = self.opened()
        mobile.send(b"a")
        effects = network.take(mobile.timer().frames[0])
        self.assertEqual([("got", b"a")], effects.notices)
        self.assertEqual([("acked", 1)], mobile.take(effects.frames[0]).notices)

    def test_refusals(self):
        mobile, network = self.opened()
        self.assertRaisesRegex(um.Refused, "^send: empty: the message is empty; expected at least one octet$", mobile.send, b"")
        for reason, call, *arguments in (
            ("notidle", mobile.open, b"a"), ("notopen", um.End("mobile").send, b"a"), ("notrunning", mobile.timer),
            ("empty", mobile.send, b""), ("toolong", mobile.send, bytes(252)), ("toolong", mobile.unit, bytes(300)),
            ("nocall", network.open, b"a"), ("nocall", mobile.open_bare), ("noframe", mobile.take, b"\xff" * 23),
        ):
            before = copy.copy(mobile)
            with self.assertRaises(um.Refused) as caught:
                call(*arguments)
            self.assertEqual(reason, caught.exception.reason)
            self.assertEqual(str(caught.exception), str(pickle.loads(pickle.dumps(caught.exception))))
            self.assertEqual(before, mobile)
        self.assertIn("(lpd)", str(caught.exception))
        for _ in range(8):
            mobile.send(b"a")
        self.assertRaisesRegex(um.Refused, "full", mobile.send, b"a")
        for wrong in (5, "text", 1.5, None):
            self.assertRaisesRegex(TypeError, "message", mobile.send, wrong)
            self.assertRaisesRegex(TypeError, "octets", mobile.take, wrong)

    def test_values(self):
        by_pickle, by_bytes = (lambda end: pickle.loads(pickle.dumps(end))), (lambda end: um.End.from_bytes(end.to_bytes()))
        for copied in (copy.copy, copy.deepcopy, by_pickle, by_bytes):
            mobile, _ = self.opened()
            mobile.send(b"first")
            other = copied(mobile)
            self.assertEqual(mobile, other)
            self.assertEqual(mobile.timer(), other.timer())
            other.close()
            self.assertNotEqual(mobile, other)
            self.assertEqual(("open", "closing"), (mobile.state, other.state))
        self.assertNotEqual(um.End("mobile"), um.End("network"))
        self.assertRaises(TypeError, hash, mobile)
        self.assertEqual("<um.End mobile, SAPI 0, SDCCH, open>", repr(mobile))
        self.assertRaisesRegex(um.Refused, "noend", um.End.from_bytes, b"umE1" + b"\xff" * 2581)
        self.assertRaisesRegex(ValueError, "octets: 2581 octets; expected 2585", um.End.from_bytes, bytes(2581))
        self.assertRaisesRegex(ValueError, "octets: begins with b'umE2'; expected b'umE1'", um.End.from_bytes, b"umE2" + bytes(2581))

    def test_saved_form(self):
        mobile = um.End("mobile", 3, um.SACCH)
        mobile.open_bare()
        octets = mobile.to_bytes()
        # head, messages acknowledged, role, SAPI, channel, opening; nothing kept, joined or held
        self.assertEqual(b"umE1" + bytes(8) + b"\0\3\1\1", octets[:16])
        self.assertEqual((2585, bytes(2560)), (len(octets), octets[25:]))

    def test_timer_runs(self):
        mobile, _ = self.opened()
        self.assertFalse(mobile.timer_runs)
        mobile.send(b"a")
        before = mobile.to_bytes()
        self.assertTrue(mobile.timer_runs)
        self.assertEqual(before, mobile.to_bytes())

    def test_notices(self):
        mobile, network = self.opened()
        got, acked = network.take(mobile.send(b"a").frames[0]), None
        acked = mobile.take(got.frames[0]).notices[0]
        closed = network.take(mobile.close().frames[0]).notices[0]
        self.assertEqual((b"a", 1, "released"), (got.notices[0].message, acked.number, closed.reason))
        self.assertEqual((um.Received, um.Acked, um.Closed), (type(got.notices[0]), type(acked), type(closed)))


class Sides(Case):
    def test_each_link_of_a_restored_side_is_tested(self):
        state = bytearray(um.Side("mobile").to_bytes())
        state[4 + 2581 + 13] = 9
        with self.assertRaises(um.Refused):
            um.Side.from_bytes(bytes(state))

    def test_both_links(self):
        for channel in (um.SDCCH, um.SACCH):
            mobile, network = um.Side("mobile", channel), um.Side("network", channel)
            asked = {0: mobile.open(b"\1\2"), 3: mobile.open_bare()}
            for sapi, info in ((3, b""), (0, b"\1\2")):
                taken, answer = network.take(asked[sapi].frames[0])
                self.assertEqual((sapi, [("opened", info)]), (taken, answer.notices))
                self.assertEqual((sapi, ([], [("opened", info)])), mobile.take(answer.frames[0]))
            up, down = mobile.send(0, b"up"), network.send(3, b"down")
            self.assertRaisesRegex(um.Refused, "notrunning", mobile.timer, 3)
            self.assertEqual(0x0F, network.timer(3).frames[0][2 * channel])
            for sapi, sender, sent, receiver, message in ((0, mobile, up, network, b"up"), (3, network, down, mobile, b"down")):
                taken, got = receiver.take(sent.frames[0])
                self.assertEqual((sapi, [("got", message)]), (taken, got.notices))
                self.assertEqual((sapi, ([], [("acked", 1)])), sender.take(got.frames[0]))
            taken, got = network.take(mobile.unit(3, b"u").frames[0])
            self.assertEqual((3, [("unit", b"u")]), (taken, got.notices))
            self.assertEqual(23, len(mobile.idle().frames[0]))
            _, closed = mobile.take(network.close(3).frames[0])
            self.assertEqual([("closed", "released")], closed.notices)
            self.assertEqual(("open", "closed"), (mobile.end(0).state, mobile.end(3).state))

    def test_refusals(self):
        mobile = um.Side("mobile")
        self.assertRaisesRegex(um.Refused, "nocall", um.Side("network").open, b"a")
        self.assertRaisesRegex(um.Refused, "notopen", mobile.send, 3, b"a")
        self.assertRaisesRegex(um.Refused, r"noframe.*\(ea\)", mobile.take, bytes(23))
        self.assertRaisesRegex(ValueError, "sapi: 1; expected 0 or 3", mobile.send, 1, b"a")
        self.assertRaisesRegex(ValueError, "role: 'phone'", um.Side, "phone")

    def test_values(self):
        mobile = um.Side("mobile")
        mobile.open(b"a")
        for other in (copy.copy(mobile), copy.deepcopy(mobile), pickle.loads(pickle.dumps(mobile))):
            self.assertEqual(mobile, other)
            other.open_bare()
            self.assertNotEqual(mobile, other)
        self.assertEqual("<um.Side mobile, SDCCH, SAPI 0 opening, SAPI 3 idle>", repr(mobile))
        self.assertEqual(b"umS1" + mobile.end(0).to_bytes()[4:] + mobile.end(3).to_bytes()[4:], mobile.to_bytes())
        self.assertEqual((True, False), (mobile.timer_runs(0), mobile.timer_runs(3)))
        mixed = mobile.to_bytes()[:2585] + um.Side("network").to_bytes()[2585:]
        self.assertRaisesRegex(um.Refused, "noend", um.Side.from_bytes, mixed)
