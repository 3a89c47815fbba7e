"""Scenes of an assignment, a handover and a return, by hand: what each side reports, and the octets of the frames that open a link, from
3GPP TS 44.006. The mobile's command and the network's response have C/R = 0."""
import copy
import pickle

from common import Case, um

SABM, UA = bytes.fromhex("013f01"), bytes.fromhex("017301")


def pair(establishment="normal", channel=um.SDCCH):
    return [um.DataLink(role, channel, 4, 6, establishment=establishment) for role in ("mobile", "network")]


class Path:
    """Two data links and what is on its way between them; a side whose number is in `lost` is not heard."""

    def __init__(self, links):
        self.links, self.air = links, [None, None]

    def run(self, slots, lost=()):
        """What each side reports of SAPI 0 in some slots: a kind, or the message got."""
        told = [[], []]
        for _ in range(slots):
            arrived, self.air = self.air, [None, None]
            for who, link in enumerate(self.links):
                notices = link.take(arrived[1 - who]) if arrived[1 - who] else []
                sent = link.next()
                for sapi, notice in notices + sent.notices:
                    told[who].append(notice.message if notice.kind == "got" else notice.kind)
                    assert sapi == 0
                self.air[who] = None if who in lost else sent.block
        return told


class LastAnswers(Case):
    def test_an_answer_is_said_twice(self):
        """An RR with N(R) = 1 and F = 0 has the control octet 21, and the mobile's response the address octet 03."""
        for channel, at in ((um.SDCCH, 0), (um.SACCH, 2)):
            mobile, network = links = pair(channel=channel)
            mobile.establish(0)
            Path(links).run(4)
            network.send(0, b"page")
            mobile.take(network.next().block)
            last = um.LastAnswer()
            first, second, third = (last.next(mobile, bytes((slot, 0))) for slot in range(3))
            self.assertEqual([False, False, True], [first.free, second.free, third.free])
            self.assertEqual(bytes.fromhex("032101"), first.block[at : at + 3])
            self.assertEqual(bytes((1, 0))[:at] + first.block[at:], second.block)
            self.assertEqual(bytes.fromhex("010301"), third.block[at : at + 3])
            # the first is lost; the second acknowledges, and once more it changes nothing
            self.assertEqual(["acked"], [notice.notice.kind for notice in network.take(second.block)])
            before = network.to_bytes()
            self.assertEqual([], network.take(second.block))
            self.assertEqual(before, network.to_bytes())

    def test_other_frames_are_said_once(self):
        mobile, network = links = pair()
        mobile.establish(0)
        last = um.LastAnswer()
        self.assertEqual([False, True], [last.next(mobile).free, last.next(mobile).free])
        Path(links).run(8)
        # an answer that another frame follows is not said again
        network.send(0, b"page")
        mobile.take(network.next().block)
        self.assertEqual(bytes.fromhex("032101"), last.next(mobile).block[:3])
        mobile.send(0, b"more")
        self.assertEqual(bytes.fromhex("0120"), last.next(mobile).block[:2])
        self.assertTrue(last.next(mobile).free)


class Faults(Case):
    def test_what_an_open_link_did_not_ask_for(self):
        """A response of the network on SAPI 0 has the address octet 01. Before any I frame, N(R) is 0."""
        mobile, _ = links = pair()
        mobile.establish(0)
        frames = {"010101": None, "012101": "nr", "016501": "nr", "017301": "ua", "011f01": "dm", "010f01": None, "030301": None}
        blocks = {bytes.fromhex(head + "2b" * 20): fault for head, fault in frames.items()}
        self.assertEqual([None] * len(blocks), [mobile.fault(block) for block in blocks])
        Path(links).run(4)
        before = mobile.to_bytes()
        self.assertEqual(list(blocks.values()), [mobile.fault(block) for block in blocks])
        self.assertEqual((before, None, ("nr", "ua", "dm")), (mobile.to_bytes(), mobile.fault(bytes(23)), um.FAULTS))
        self.assertRaises(ValueError, mobile.fault, bytes(22))


class Establishments(Case):
    def test_assignment_by_the_mobile(self):
        mobile, network = links = pair()
        self.assertEqual(("normal", "normal"), tuple(link.establishment for link in links))
        mobile.establish(0)
        self.assertEqual("opening", mobile.state(0))
        up = mobile.next().block
        self.assertEqual(SABM, up[:3])
        self.assertEqual([(0, ("opened", b""))], network.take(up))
        down = network.next().block
        self.assertEqual(UA, down[:3])
        self.assertEqual([(0, ("opened", b""))], mobile.take(down))
        mobile.send(0, b"assignment complete")
        network.send(0, b"alerting")
        told = Path(links).run(6)
        self.assertEqual([{b"alerting", "acked"}, {b"assignment complete", "acked"}], [set(side) for side in told])

    def test_assignment_by_the_network(self):
        """The network opens: its command and the mobile's response have C/R = 1. On SACCH after the caller's layer 1 octets."""
        for channel in (um.SDCCH, um.SACCH):
            mobile, network = links = pair(channel=channel)
            at = 2 if channel == um.SACCH else 0
            network.establish(0)
            down = network.next().block
            self.assertEqual(bytes.fromhex("033f01"), down[at : at + 3])
            self.assertEqual([(0, ("opened", b""))], mobile.take(down))
            up = mobile.next().block
            self.assertEqual(bytes.fromhex("037301"), up[at : at + 3])
            self.assertEqual([(0, ("opened", b""))], network.take(up))
            network.send(0, b"N")
            self.assertEqual([[b"N"], ["acked"]], Path(links).run(6))

    def test_both_open(self):
        """Each answers the other's SABM, and each reports one opening."""
        links = pair()
        for link in links:
            link.establish(0)
        path = Path(links)
        self.assertEqual([["opened"], ["opened"]], path.run(6))
        links[0].send(0, b"M")
        links[1].send(0, b"N")
        self.assertEqual([{b"N", "acked"}, {b"M", "acked"}], [set(side) for side in path.run(6)])

    def test_return(self):
        """The mobile leaves a channel that it opened by contention, and comes back to it: the network's link is still open."""
        mobile, network = links = pair("contention")
        path = Path(links)
        mobile.open(b"id")
        self.assertEqual([["opened"], ["opened"]], path.run(4))
        network.send(0, b"assignment command")
        self.assertEqual([[b"assignment command"], ["acked"]], path.run(4))
        self.assertEqual(("open", "open", "contention"), (mobile.state(0), network.state(0), network.establishment))
        path.air = [None, None]
        mobile.establish(0)
        self.assertEqual([["opened"], ["opened"]], path.run(4))
        self.assertEqual(("normal", "normal"), (mobile.establishment, network.establishment))
        mobile.send(0, b"assignment failure")
        self.assertEqual([["acked"], [b"assignment failure"]], path.run(4))
        self.refused(um.Refused, ["nocall", "a link of normal establishment is opened with establish(0)"], mobile.open, b"id")

    def test_return_before_a_message(self):
        """The network's link, opened by contention, has received nothing since: a SABM without information opens it again at once."""
        mobile, network = links = pair("contention")
        path = Path(links)
        mobile.open(b"id")
        self.assertEqual([["opened"], ["opened"]], path.run(4))
        mobile.establish(0)
        self.assertEqual([["opened"], ["opened"]], path.run(4))

    def test_open_again(self):
        """Re-establishment of an open link, by either side."""
        for who in range(2):
            links = pair()
            path = Path(links)
            links[0].establish(0)
            path.run(4)
            links[0].send(0, b"A")
            links[1].send(0, b"B")
            path.run(6)
            links[who].establish(0)
            self.assertEqual("opening", links[who].state(0))
            self.assertEqual([["opened"], ["opened"]], path.run(4))
            links[who].send(0, b"C")
            told = path.run(6)
            self.assertEqual([["acked"], [b"C"]], [told[who], told[1 - who]])

    def test_unacked(self):
        """A handover: B and C are lost with the old channel, and are sent again over the new one; each arrives once."""
        links = pair()
        old = Path(links)
        links[0].establish(0)
        old.run(4)
        links[0].send(0, b"A")
        self.assertEqual([b"A"], links[0].unacked(0))
        self.assertEqual([["acked"], [b"A"]], old.run(4))
        self.assertEqual([[], []], [links[0].unacked(0), links[0].unacked(3)])
        messages = [b"B" * 251, b"C"]
        for message in messages:
            links[0].send(0, message)
        self.assertEqual([["closed"], []], old.run(400, lost=(0, 1)))
        self.assertEqual("closed", links[0].state(0))
        self.assertEqual(messages, links[0].unacked(0))
        self.assertEqual(messages, um.DataLink.from_bytes(links[0].to_bytes()).unacked(0))
        fresh = pair()
        new = Path(fresh)
        fresh[0].establish(0)
        self.assertEqual([["opened"], ["opened"]], new.run(4))
        for message in links[0].unacked(0):
            fresh[0].send(0, message)
        told = new.run(100)
        self.assertEqual(["acked", "acked"], told[0])
        self.assertEqual(messages, told[1])
        self.assertEqual([], fresh[0].unacked(0))
        links[0].close_local(0)
        self.assertEqual([], links[0].unacked(0))

    def test_one_comes_twice(self):
        """Only the acknowledgement is lost: the first message that is sent again was received before."""
        links = pair()
        old = Path(links)
        links[0].establish(0)
        old.run(4)
        links[0].send(0, b"A")
        links[0].send(0, b"B")
        self.assertEqual([["closed"], [b"A"]], old.run(400, lost=(1,)))
        self.assertEqual([b"A", b"B"], links[0].unacked(0))
        # over the same channel: a new opening drops them
        waiting = links[0].unacked(0)
        links[0].establish(0)
        self.assertEqual([], links[0].unacked(0))
        self.assertEqual([["opened"], ["opened"]], old.run(4))
        for message in waiting:
            links[0].send(0, message)
        told = old.run(20)
        self.assertEqual([["acked", "acked"], [b"A", b"B"]], told)

    def test_eight(self):
        links = pair()
        links[1].establish(0)
        path = Path(links)
        path.run(4)
        messages = [bytes([number]) * 30 for number in range(8)]
        for message in messages:
            links[1].send(0, message)
        self.assertEqual(messages, links[1].unacked(0))
        self.assertRaisesRegex(um.Refused, "full", links[1].send, 0, b"ninth")

    def test_refusals(self):
        mobile, network = pair()
        wrongs = ("handover", "'handover'; expected one of 'contention', 'normal'"), (1, "1; expected"), (None, "None; expected")
        for wrong, words in wrongs:
            self.refused(ValueError, ["establishment: " + words], um.DataLink, "mobile", um.SDCCH, 4, 6, wrong)
        self.refused(ValueError, ["sapi: 1; expected 0 or 3"], mobile.establish, 1)
        self.refused(ValueError, ["sapi: None; expected 0 or 3"], mobile.unacked, None)
        self.refused(um.Refused, ["open: nocall", "the network is opened with establish(0)"], network.open, b"id")
        mobile.establish(0)
        before = mobile.to_bytes()
        words = "establish: notidle: the link is opening; establish expects one that is idle, open or closed"
        self.refused(um.Refused, [words], mobile.establish, 0)
        self.assertEqual(before, mobile.to_bytes())
        Path([mobile, network]).run(4)
        network.close(0)
        self.refused(um.Refused, ["the link is closing"], network.establish, 0)
        mobile.open_bare()
        self.refused(um.Refused, ["open_bare: notidle: the link is opening"], mobile.open_bare)

    def test_values(self):
        """Copies and the saved form, which stays umL2, keep the kind of establishment."""
        mobile = pair()[0]
        self.assertEqual((5224, b"umL2"), (len(mobile.to_bytes()), mobile.to_bytes()[:4]))
        for other in (copy.deepcopy(mobile), pickle.loads(pickle.dumps(mobile)), um.DataLink.from_bytes(mobile.to_bytes())):
            self.assertEqual(("normal", mobile), (other.establishment, other))
        self.assertNotEqual(mobile, pair("contention")[0])
        self.assertEqual(("contention", "normal"), um.ESTABLISHMENTS)
