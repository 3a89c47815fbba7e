"""The mobile of examples/network, with all that it reports tested, at that time, against what the network says of itself on Abis; and its
user, who answers calls and hangs up."""
import collections
import random

import speech
import um
import vty
from air import SOFT
from mobile import Mobile

BSICS, TSCS, ARFCNS = (13, 14), (5, 6), (871, 873)  # of the two cells, as in osmo-bsc.cfg
RATES = "full", "half"


class Visit:
    """A channel that the mobile was on: of each link what the network got of it and sent on it, where in these lists it began and is now,
    and what the mobile sent and reported."""

    def __init__(self, truth):
        self.truth, self.ours, self.theirs = truth, dict(truth.up), dict(truth.down)
        self.base, self.taken, self.acked, self.sent, self.reported = {0: 0, 3: 0}, {0: 0, 3: 0}, {0: 0, 3: 0}, {0: [], 3: []}, []


class Watched(Mobile):
    def __init__(self, cell, index):
        self.cell, self.index, self.ahead, self.visits, self.visit = cell, index, random.randrange(1000000), [], None
        self.twin, self.alone, self.partner, self.idle_since, self.deaf, self.before = None, True, None, 0, False, None
        options = cell.options
        t200 = options.t200, options.t200_sapi3
        super().__init__("00101%010d" % index, self._say, options.among, t200, RATES[index % 2], bool(options.twice))

    def _say(self, text):
        self.cell.log(self.index, text)
        self.expect(not text.startswith("not a frame"), text)

    def expect(self, holds, text):
        self.cell.expect(holds, f"mobile {self.index}: {self.kind}: {text}")

    @property
    def station(self):
        """The base station that the mobile hears."""
        return self.cell.stations[ARFCNS.index(self.arfcn) if self.arfcn else 0]

    @property
    def truth(self):
        return self.visit.truth if self.visit else None

    # -- bursts and blocks

    def frame(self, fn):
        """Hears what the base station sent on time slot `tn` in this frame. The mobile's own count of frames is another."""
        if self.number is not None and self.truth is not self.station.rsl.truths[self.number]:
            self.ended("channel given to another")
        place = um.place_frame(self.channel.combination, "downlink", self.tn, fn)
        is_traffic = self.channel.combination.startswith("tch")
        first = self.cell.group(fn) if is_traffic else place.first if place else fn
        burst = None if self.deaf else self.station.bursts[self.tn]
        soft = self.cell.air.carry(burst, self.index, first) if burst else None
        if is_traffic:
            self.hear_traffic(fn, burst, soft)
        self.hear(fn + self.ahead, soft)
        wanted = fn, BSICS[self.station.number]
        self.expect(self.offset is None or (self.fn, self.bsic) == wanted, f"frame {self.fn}, BSIC {self.bsic} in frame {fn}")
        self.live()

    def hear_traffic(self, fn, burst, soft):
        """Keeps what the base station sent, for the test of FACCH, and decodes speech by libosmocoding."""
        rate = self.channel.rate
        place = um.place_traffic(rate, "downlink", fn)
        if place is None:
            return
        self.sent_traffic.append(burst)
        self.heard_traffic.append(soft or bytes(148))
        if not self.channel.is_speech or (place.burst + 1) % speech.STEP[rate]:
            return
        heard = list(self.heard_traffic)[-speech.SPAN[rate] :]
        octets = speech.decoded(rate, heard, place.ends is None) if len(heard) == speech.SPAN[rate] else b""
        if len(octets) not in (0, speech.FACCH) and self.partner:
            speaker, _, is_whole = speech.said_in(octets)
            is_known = is_whole and speaker == self.partner.index
            self.cell.counts["speech frames of the other" if is_known else "other speech frames"] += 1

    def hear_block(self, block):
        name, octets = block.channel.name, block.report.accepted
        self.cell.counts[f"blocks {'accepted' if octets else 'rejected'} on {name}"] += 1
        if octets:
            self.compare(name, octets, block)
            # a block of FACCH has half of each training sequence, so that lost bursts leave too little of it
            is_told = name != "FACCH" or block.heard == speech.SPAN[self.channel.rate]
            self.expect(not is_told or block.report.tsc == TSCS[self.station.number], f"{name}: {octets.hex()}, tsc {block.report.tsc}")
            if name == "BCCH" or name == "CCCH" and octets[2] == 0x3F:
                known = octets in self.station.rsl.common or not any(octets)  # zeros until the controller gave a block
                self.expect(known, f"{name}: {octets.hex()}")
        super().hear_block(block)

    def compare(self, name, octets, block):
        """Tests that the base station sent this block: one of FACCH by libosmocoding."""
        if name == "FACCH":
            size = speech.SPAN[self.channel.rate]
            bursts = list(self.sent_traffic)[-size:]
            if None in bursts or len(bursts) < size:
                self.cell.counts["blocks accepted of which not all bursts were sent"] += 1
            else:
                sent = speech.decoded(self.channel.rate, [burst.translate(SOFT) for burst in bursts])
                self.expect(sent == octets, f"{name}: {octets.hex()} at {block.first}, sent {sent.hex()}")
            return
        sent = self.station.blocks[self.tn]
        if sent is None or not sent.report.accepted:  # a channel that begins within a block: the base station sent other bursts before
            self.cell.counts["blocks accepted of which not all bursts were sent"] += 1
        else:
            at = block.first, block.channel, block.subchannel
            same = (sent.report.accepted, sent.first, sent.channel) == (octets, *at[:2])
            same = same and (sent.subchannel == block.subchannel or self.channel.combination == "tch_h")
            self.expect(same, f"{name}: {octets.hex()} at {at}, sent {sent}")

    def _signalling(self, block):
        self.cell.counts[f"I frames heard with P = 1 on {self.channel.name}"] += block[1] & 0x11 == 0x10
        super()._signalling(block)

    def heard_slow(self, frame):
        known = any(message[1:].startswith(frame.info) for message in self.station.rsl.filling)
        self.expect(frame.kind == "ui" and known, f"sacch: {frame}")

    def _report(self):
        block = super()._report()
        self.visit.reported.append(bytes([(block[0] & 31) << 3, block[1]]) + block[5:])
        return block

    # -- the session

    def begin(self, kind, first):
        super().begin(kind, first)
        self.twin, self.alone, self.visits, self.visit = None, True, [], None

    def follow(self, leader):
        """Takes the leader's assignment for its own, so that both contend for one channel."""
        leader.twin, self.next_access = self, self.fn + 2000

    def speak(self):
        burst = super().speak()
        if burst and self.twin and self.number is None:
            self.twin.accesses = list(self.accesses)
        return None if self.deaf else burst

    def _tune(self, number, tsc, channel, link):
        super()._tune(number, tsc, channel, link)
        self.visit = Visit(self.station.rsl.truths[number])
        self.visits.append(self.visit)
        self.sent_traffic, self.heard_traffic, self.sent_kind = collections.deque(maxlen=8), collections.deque(maxlen=8), {}
        if channel.main == um.Channel.FACCH and self.cell.options.speech:
            channel.speech = lambda fn, tsc: speech.block_of(channel.rate, speech.frame_of(channel.rate, self.index, fn), tsc)

    def _assigned(self, description):
        super()._assigned(description)
        for other in self.cell.mobiles:  # another took it, too
            if self.visit and other is not self and other.truth is self.truth:
                self.alone = other.alone = False

    def _change(self, change):
        before = self.visit
        super()._change(change)
        if self.visit is not before:
            self.cell.counts["handovers begun" if change.reference is not None else "assignments begun"] += 1
            self.deaf = random.random() < self.cell.options.fail

    def _return(self, why):
        before = self.visits[-2]
        super()._return(why)
        self.visits.pop()
        self.visit, self.deaf = before, False
        self.cell.counts["returns to the old channel"] += 1

    def _is_established(self):
        self.cell.counts[f"established on {self.channel.name}"] += 1
        super()._is_established()

    def ended(self, how):
        opened = self.visits[0].truth.opened.get(0) if self.visits else None
        for visit in self.visits:
            self.cell.counts["measurement results"] += len(visit.truth.results)
            sent = iter(visit.reported)
            self.expect(not self.alone or all(result in sent for result in visit.truth.results), "measurement results")
            for sapi in (0, 3) if opened == self.first or visit is not self.visits[0] else ():
                up = visit.ours[sapi][visit.base[sapi] :]
                self.expect(up == visit.sent[sapi][: len(up)], f"the network got {[message.hex() for message in up]}")
        if how != "complete" and opened not in (None, self.first) and len(self.visits) == 1:
            how = "contention"  # if not by the UA, the mobile learned it by a DM, or when the channel went
        elif how == "refused" and opened:
            how = "refused, though the network had opened the link"
        self.cell.outcomes[self.kind, how] += 1
        self.cell.counts[f"frames of complete sessions: {self.kind}"] += self.fn - self.since if how == "complete" else 0
        if self.kind == "call":
            self.cell.counts[f"calls at {self.rate} rate"] += 1
            self.cell.counts[f"calls at {self.rate} rate complete"] += how == "complete"
            self.partner.partner, self.partner = None, None
            self.cell.later(500, self.cell.call_over(self.rate))  # its channels are not free at once
        self.idle_since, self.deaf = self.fn, False
        super().ended(how)
        self.visit, self.visits = None, []

    def sends(self, name, frame):
        is_again = frame.kind == "i" and frame.pf or frame.kind in ("sabm", "disc") and frame.kind == self.sent_kind.get(name)
        self.cell.counts[f"T200 expired on {name}"] += bool(is_again)
        self.cell.counts[f"RR sent on {name}"] += frame.kind == "rr"
        self.sent_kind[name] = frame.kind
        super().sends(name, frame)

    # -- notices

    def notice(self, sapi, notice):
        kind, value = notice
        self.cell.counts[f"notices {kind}"] += 1
        self._say(f"{kind} {sapi} {value.hex() if isinstance(value, bytes) else value}")
        if getattr(self, f"_{kind}")(sapi, value):
            super().notice(sapi, notice)

    def _opened(self, sapi, _):
        visit, truth = self.visit, self.truth
        said = truth.opened.get(0) or None
        self.expect(sapi in truth.opened and (sapi == 3 or said == (None if self.announced else self.first)), f"opened {sapi}")
        if visit.theirs[sapi] is not truth.down[sapi]:
            visit.theirs[sapi], visit.taken[sapi] = truth.down[sapi], 0
        visit.ours[sapi], visit.base[sapi], visit.sent[sapi], visit.acked[sapi] = truth.up[sapi], len(truth.up[sapi]), [], 0
        return True

    def _acked(self, sapi, _):
        visit = self.visit
        visit.acked[sapi] += 1
        count = visit.acked[sapi]
        self.expect(visit.ours[sapi][visit.base[sapi] :][:count] == visit.sent[sapi][:count], f"acked {sapi}")
        return True

    def _got(self, sapi, message):
        """Tests that it is the network's next one. osmo-bts cuts a message if it takes a repeated SABM for a new one."""
        visit = self.visit
        wanted = visit.theirs[sapi][visit.taken[sapi] :]
        if sapi in self.truth.reopened:
            while wanted and not wanted[0].endswith(message):
                wanted.pop(0)
        whole = wanted[:1] == [message]
        self.cell.counts["messages that osmo-bts cut"] += not whole
        self.expect(whole or (wanted and sapi in self.truth.reopened), f"got {sapi} {message.hex()}")
        visit.taken[sapi] = len(visit.theirs[sapi]) - len(wanted) + 1
        return whole

    def _closed(self, sapi, reason):
        opened = self.truth.opened.get(sapi, "no link")
        self.expect(reason != "contention" or opened not in ("no link", self.first), "contention")
        self.expect(reason != "released" or sapi in self.truth.released, f"released {sapi}")
        return True

    def _unit(self, sapi, message):
        is_physical = message[:2] == b"\x06\x2d" and "HANDOVER DETECT" in self.truth.events
        self.expect(is_physical, f"unit {sapi} {message.hex()}")
        return True

    def _oversize(self, sapi, _):
        self.expect(False, f"oversize {sapi}")

    def repeat(self, message, sapi=0):
        if not (sapi == 0 and self.is_moving) and self._link_of(sapi).state(sapi) == "open":
            self.visit.sent[sapi].append(message)
        super().repeat(message, sapi)

    def received(self, message):
        self.cell.counts["short messages received"] += 1
        self.expect(any(message.endswith(text) for text in self.cell.texts), f"short message {message.hex()}")

    # -- the user

    def call_to(self, other):
        self.partner, other.partner = other, self
        self.cell.room[self.rate] -= 1
        self.dial("%05d" % (10000 + other.index))

    def live(self):
        """Answers after a while, talks, and one of the two hangs up."""
        call, options = self.call, self.cell.options
        before, self.before = self.before, call and call.state
        state = self.before
        if state == before:
            return
        if state == "ringing":
            self.when("ringing", options.ring, call.answer)
        elif state == "active":
            self.cell.counts["ends of calls connected"] += 1
            for number in range(options.handovers if self.kind == "call" else 0):
                self.when("active", 150 + 300 * number, self.hand_over)
            if options.sms and self.kind == "call":
                self.when("active", 60, self.text)
            if self.partner and (self.index + self.partner.index) // 2 % 2 == (self.kind == "call"):
                self.when("active", options.talk + 300 * options.handovers + random.randrange(100), call.hang_up)

    def when(self, state, frames, act):
        """Calls `act` in so many frames, if the same call is still in this state."""
        call = self.call
        self.cell.later(frames, lambda: self.call is call and call.state == state and act())

    def text(self):
        """Sends a short message beside the call."""
        text = random.randbytes(self.cell.options.sms)
        self.cell.texts.add(text)
        self.message("%05d" % (10000 + self.partner.index), text)

    def hand_over(self):
        """Has the controller hand the mobile over to the other cell."""
        place = f"bts {self.station.number} trx 0 timeslot {self.tn} sub-slot {self.channel.subchannel}"
        vty.command(f"{place} handover {1 - self.station.number}", lambda lines: self.cell.log("vty", f"{place}: {lines}"))
