"""A call between a mobile and a network, both by um, over bursts: SCH, RACH, CCCH, SDCCH, the assignment of a full rate traffic channel,
FACCH, SACCH, speech and the release. Prints the chart. Each side is what a test set plays to the other: once a frame `speak` says the burst
of a time slot, and `hear` takes the other's. Put a radio or another implementation in place of either.

    PYTHONPATH=bindings/python python3 examples/python/call.py [SHARE OF BITS FLIPPED]"""
import random
import sys

import um

BSIC, TSC, WORDS, TALK = 13, 5, 16, 500  # words that the list decoder tries; frames that a talk takes
SDCCH, TCH = 0x20, 0x0A  # channel numbers (TS 44.018, 10.5.2.5): SDCCH/4, subchannel 0, on time slot 0; TCH/F on time slot 2
T200 = {SDCCH: 2, TCH: 4}  # in slots, where a block is heard in the frame of its last burst
CALL = {name: bytes.fromhex(octets) for name, octets in {
    "CM SERVICE REQUEST": "0524710333198105f400000001", "CM SERVICE ACCEPT": "0521", "SETUP": "030504036000815e04810100f0",
    "CALL PROCEEDING": "8302", "ASSIGNMENT COMMAND": "062e0aa367076301", "ASSIGNMENT COMPLETE": "062900", "ALERTING": "8301",
    "CONNECT": "8307", "CONNECT ACKNOWLEDGE": "030f", "DISCONNECT": "032502e090", "RELEASE": "832d", "RELEASE COMPLETE": "032a",
    "CHANNEL RELEASE": "060d00"}.items()}
NAMES = {octets[:2]: name for name, octets in CALL.items()}
ANSWERS = {"CM SERVICE REQUEST": ["CM SERVICE ACCEPT"], "CM SERVICE ACCEPT": ["SETUP"], "CONNECT": ["CONNECT ACKNOWLEDGE"],
           "SETUP": ["CALL PROCEEDING", "ASSIGNMENT COMMAND"], "ASSIGNMENT COMPLETE": ["ALERTING", "CONNECT"], "DISCONNECT": ["RELEASE"],
           "RELEASE": ["RELEASE COMPLETE"], "RELEASE COMPLETE": ["CHANNEL RELEASE"]}
SLOW = {"network": b"\x06\x1d" + bytes(16), "mobile": b"\x06\x15" + bytes(16)}  # SYSTEM INFORMATION TYPE 5, MEASUREMENT REPORT
# a frame of speech: 456 zeros in a codec's place, and stealing flags of 0
SPEECH = [burst[:3] + bytes(58) + burst[61:87] + bytes(58) + burst[145:] for burst in um.send_block(bytes(23), TSC)]


def name_of(message):
    return NAMES[bytes([message[0], message[1] & (0xFF if message[0] == 6 else 0x3F)])]  # without the bit N(SD)


def reference(ra, fn):
    t1, t2, t3 = um.time_of_frame(fn)  # TS 44.018, 10.5.2.30
    return bytes([ra, t1 % 32 << 3 | t3 >> 3, (t3 & 7) << 5 | t2])


class Dedicated:
    """A side of a dedicated channel and its SACCH: the bursts of a time slot, and a data link."""

    def __init__(self, side, number):
        self.side, self.tn, self.is_traffic, self.blocks = side, number & 7, number == TCH, {}
        self.combination = "tch_f" if self.is_traffic else "bcch_ccch_sdcch4"
        how = side.hears, self.tn, WORDS
        self.sender = um.TrafficSender("full_rate", side.speaks, TSC)
        self.receiver = um.Traffic("full_rate", *how) if self.is_traffic else um.Slot(self.combination, *how)
        self.link = um.DataLink(side.role, um.SDCCH, T200[number], establishment="normal" if self.is_traffic else "contention")

    def hear(self, soft):
        taken = self.receiver.take(self.side.fn, soft) or []
        self.side.speech += self.is_traffic and sum(each.kind == "speech" for each in taken)
        for block in [each.block for each in taken] if self.is_traffic else [taken] if taken else []:
            octets = block.report.accepted
            if octets and block.channel in (um.SDCCH, um.Channel.FACCH):
                self.side.handle(self, self.link.take(octets))
            elif octets and block.channel == um.SACCH:
                self.side.slow += um.read_frame(octets, um.SACCH).info in SLOW.values()

    def speak(self):
        """The burst of this frame; None if it is of another channel."""
        place = um.place_frame(self.combination, self.side.speaks, self.tn, self.side.fn)
        if self.is_traffic and not place:
            return self.speak_traffic(um.place_traffic("full_rate", self.side.speaks, self.side.fn))
        if not place or place.channel not in (um.SDCCH, um.SACCH) or place.subchannel:
            return None
        if place.burst == 0:
            slow = um.write_frame(um.Frame("ui", cr=int(self.side.role == "network"), info=SLOW[self.side.role]), um.SACCH)
            self.blocks[place.channel] = um.send_block(slow if place.channel == um.SACCH else self.next().block, TSC)
        return self.blocks[place.channel][place.burst] if place.channel in self.blocks else None

    def speak_traffic(self, place):
        """Each fourth burst a block begins, in half of each of eight bursts: FACCH, or speech where the data link has nothing to send."""
        if place and place.begins is not None:
            sent = self.next()
            if sent.free and self.side.talks:
                self.sender.speech(SPEECH)
            else:
                self.sender.facch(sent.block)
        return self.sender.burst(self.side.fn)

    def next(self):
        sent = self.link.next()
        self.side.handle(self, sent.notices)
        if not sent.free:
            frame = um.read_frame(sent.block)
            self.side.tell("FACCH" if self.is_traffic else "SDCCH", frame.kind, name_of(frame.info) if frame.info else "")
        return sent


class Side:  # `fn` is its own count of frames
    def __init__(self, fn):
        self.fn, self.count, self.heard, self.talks, self.closed, self.slow, self.speech = fn, 0, [], False, None, 0, 0

    def tell(self, channel, kind, text=""):
        print(f"{self.fn:6}  {'------>' if self.role == 'mobile' else '<------'}  {channel:6} {kind:5} {text}".rstrip())

    def send(self, channel, name):
        """Gives a message to a data link. A mobile numbers those of call control and mobility management by the bit N(SD)."""
        message = bytearray(CALL[name])
        if self.role == "mobile" and message[0] != 6:
            self.count ^= 1
            message[1] |= self.count << 6
        channel.link.send(0, bytes(message))

    def handle(self, channel, notices):
        """What a data link reports: a message is answered on the channel that it came from, before anything else happens."""
        for _, (kind, value) in notices:
            self.closed = value if kind == "closed" else self.closed
            if kind == "opened" and self.role == "mobile" and channel.is_traffic:
                self.send(channel, "ASSIGNMENT COMPLETE")
            elif kind == "got" or kind == "opened" and value and self.role == "network":
                name = name_of(value)
                self.heard.append(name)
                self.talks = name in ("CONNECT", "CONNECT ACKNOWLEDGE") or self.talks and name not in ("DISCONNECT", "RELEASE")
                for answer in ANSWERS.get(name, []):
                    self.send(channel, answer)
                self.act(name, channel)


class Network(Side):
    role, hears, speaks, channels, assignment, common = "network", "uplink", "downlink", [], None, None

    def hear(self, tn, soft):
        place = um.place_frame("bcch_ccch_sdcch4", "uplink", 0, self.fn)
        ra = um.receive_access(soft[:88], um.write_bsic(BSIC)).accepted if tn == 0 and soft and place.channel == um.Channel.RACH else None
        if ra and not self.heard:
            told = bytes([0x2D, 6, 0x3F, 0, SDCCH, TSC << 5 | 3, 0x67, *reference(um.read_ra(ra), self.fn), 0, 0])
            self.channels, self.assignment = [Dedicated(self, SDCCH)], told.ljust(23, b"\x2b")
        for channel in [each for each in self.channels if each.tn == tn]:
            channel.hear(soft)

    def speak(self, tn):
        place = um.place_frame("bcch_ccch_sdcch4", "downlink", 0, self.fn) if tn == 0 else None
        if place and place.channel == um.Channel.SCH:
            return um.send_sync(um.write_sch(BSIC, self.fn))
        if place and place.channel == um.Channel.CCCH:
            if place.burst == 0 and self.assignment:
                self.tell("CCCH", "", "IMMEDIATE ASSIGNMENT")
            if place.burst == 0:
                self.common, self.assignment = self.assignment and um.send_block(self.assignment, TSC), None
            return self.common and self.common[place.burst]
        return next(filter(None, (each.speak() for each in list(self.channels) if each.tn == tn)), None)

    def act(self, name, channel):
        if name in ("SETUP", "ASSIGNMENT COMPLETE"):  # the old channel ends when the mobile is on the new one
            self.channels = [channel, Dedicated(self, TCH)] if name == "SETUP" else [channel]


class Mobile(Side):
    role, hears, speaks, channel, bsic, hang_up, accesses, next_access = "mobile", "downlink", "uplink", None, None, None, [], 0

    def hear(self, tn, soft):
        if self.channel:
            return self.channel.hear(soft) if tn == self.channel.tn else None
        if tn == 0 and self.bsic is None:
            report = um.receive_sync(soft or bytes(148))  # its CRC has only ten bits
            said = um.read_sch(report.accepted) if report.accepted and report.wrong_training < 16 else None
            if said:
                self.fn, self.bsic, self.common = said.frame, said.bsic, um.Slot("bcch_ccch_sdcch4", "downlink", 0, WORDS)
        block = self.common.take(self.fn, soft) if tn == 0 and self.bsic is not None else None
        octets = block.report.accepted if block and block.channel == um.Channel.CCCH else None
        if octets and octets[1:3] == b"\x06\x3f" and octets[7:10] in self.accesses:  # IMMEDIATE ASSIGNMENT
            self.channel, self.count = Dedicated(self, octets[4]), 0
            self.channel.link.open(CALL["CM SERVICE REQUEST"])

    def speak(self, tn):
        if self.channel:
            if self.fn == self.hang_up and tn == self.channel.tn:
                self.send(self.channel, "DISCONNECT")
            return self.channel.speak() if tn == self.channel.tn else None
        place = um.place_frame("bcch_ccch_sdcch4", "uplink", 0, self.fn) if tn == 0 and self.bsic is not None else None
        if not place or place.channel != um.Channel.RACH or self.fn < self.next_access:
            return None
        ra = 0xE0 | random.randrange(16)  # a call, for a full rate channel
        self.accesses, self.next_access = [*self.accesses[-2:], reference(ra, self.fn)], self.fn + random.randrange(110, 180)
        self.tell("RACH", f"{ra:02x}")
        return um.send_access(um.write_ra(ra), um.write_bsic(self.bsic)).ljust(148, b"\0")

    def act(self, name, channel):
        self.hang_up = self.fn + TALK if name == "CONNECT" else self.hang_up
        if name == "ASSIGNMENT COMMAND":  # which is not acknowledged: the mobile leaves at once
            self.channel = Dedicated(self, CALL[name][2])
            self.channel.link.establish(0)
        elif name == "CHANNEL RELEASE":
            channel.link.close(0)


def main(share=0.03):
    """A call in an air that flips this share of the bits. True: all messages came, once, and both sides report the release."""
    network, mobile = Network(0), Mobile(1234567)
    while network.fn < 5000 and not (network.closed and mobile.closed):
        for tn in (SDCCH & 7, TCH & 7):
            for one, other in ((network, mobile), (mobile, network)):
                burst = one.speak(tn)
                other.hear(tn, burst and um.soft_from_bits([bit ^ (random.random() < share) for bit in burst]))
        network.fn, mobile.fn = (network.fn + 1) % um.FRAMES, (mobile.fn + 1) % um.FRAMES
    for side in (mobile, network):
        print(f"{side.role}: {side.speech} frames of the other's speech, {side.slow} blocks of its SACCH, {side.closed}")
    return sorted(network.heard + mobile.heard) == sorted(CALL) and network.closed == mobile.closed == "released"


random.seed(1)
sys.exit(not main(*map(float, sys.argv[1:])))
