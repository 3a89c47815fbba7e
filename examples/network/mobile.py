"""A mobile of a test set, from the synchronisation burst to a short message or a call: everything below layer 3 is um's.

The caller has the radio: for each TDMA frame it gives `hear` the burst of time slot `tn` of the cell on `arfcn`, then asks `speak` for the
burst to send. The mobile finds the cell's time on SCH, reads BCCH and CCCH, and is then idle. It answers pages by itself. `update`,
`detach`, `message` and `dial` begin a session: access bursts, IMMEDIATE ASSIGNMENT, SABM and UA, layer 3, other channels if the network
says so, CHANNEL RELEASE, DISC.

`checks/network show` runs one against osmo-bts-trx, osmo-bsc and osmo-msc, `checks/network call` two, and print what they hear and send."""
import random

import um
from calls import Call, digits
from changes import read_assignment, read_handover
from channels import Common, UnknownChannel, channel_of
from messages import answer, submit
from um import Channel

CAUSES = {"update": 0x00, "detach": 0x00, "message": 0x10, "page": 0x80, "call": 0xE0}  # of a CHANNEL REQUEST, with four random bits
ACCESSES = 8  # access bursts until the mobile gives up: 1 + max retrans
T3110 = 306  # frames after CHANNEL RELEASE in which the DISC may be answered
T3124 = 69  # frames of access bursts at a handover; without PHYSICAL INFORMATION the mobile returns
T200_FACCH = {"full_rate": 11, "half_rate_0": 7, "half_rate_1": 7}  # slots of FACCH, which begin every 13/3 and 26/3 frames
T200_SACCH = 4
RADIO_LINK_TIMEOUT = 8  # blocks of SACCH: a rejected one costs 1, an accepted one gains 2
LONGEST = 13000  # frames of a session: a minute
CLASSMARK = bytes.fromhex("03331981")
UPDATED, CM_ACCEPTED, IDENTITY = 0x02, 0x21, 0x18
REJECTED = 0x04, 0x22


def request_reference(ra, fn):
    """The three octets by which an IMMEDIATE ASSIGNMENT names the access burst with this RA, sent in this frame (44.018, 10.5.2.30)."""
    t1, t2, t3 = um.time_of_frame(fn)
    return bytes([ra, t1 % 32 << 3 | t3 >> 3, (t3 & 7) << 5 | t2])


def describe(frame):
    """A frame in one line."""
    numbers = {"i": f" nr {frame.nr} ns {frame.ns}", "rr": f" nr {frame.nr}", "rej": f" nr {frame.nr}"}.get(frame.kind, "")
    return f"{frame.kind} sapi {frame.sapi} p/f {frame.pf}{numbers}{' more' if frame.more else ''} {frame.info.hex()}".rstrip()


class Mobile:
    """A mobile with an IMSI of 15 digits. `words` is the number of words that its list decoder tries for a block, `t200` how many slots
    it waits for an answer on SAPI 0 and SAPI 3 of SDCCH, `rate` which rate of speech it asks for, "full" or "half". `say` is called with
    what happens, a line each. If `twice` is true, an RR with F = 0 goes once more into the next slot of SDCCH or FACCH, if it is free."""

    def __init__(self, imsi, say, words=64, t200=(2, 2), rate="full", twice=False):
        self.imsi, self.say, self.words, self.t200, self.rate, self.twice = digits("9" + imsi), say, words, t200, rate, twice
        self.offset = self.candidate = self.fn = self.bsic = self.arfcn = self.lai = self.tmsi = None
        self.common = "bcch_ccch_sdcch4"
        self._idle()

    def _idle(self):
        """No session: the mobile listens to BCCH and CCCH."""
        self.kind, self.channel, self.accesses = None, Common(self.common, self.words), []
        self.call = self.link = self.slow_link = self.access = self.old = self.number = self.announced = self.asked = None
        self.again, self.is_moving = [], False

    @property
    def tn(self):
        """The time slot that the mobile is tuned to."""
        return self.channel.tn

    # -- bursts and blocks

    def hear(self, tick, soft):
        """The burst of time slot `tn`: 148 soft bits, None if nothing was received. `tick` is the mobile's own count of frames."""
        if self.offset is None:
            return self._synchronise(tick, soft)
        self.fn = (tick + self.offset) % um.FRAMES
        for block in self.channel.hear(self.fn, soft):
            self.hear_block(block)
        if self.access is not None and self.fn >= self.access_until:
            self._return("no PHYSICAL INFORMATION")

    def _synchronise(self, tick, soft):
        """SCH: two that agree, with few wrong training bits, since ten bits of CRC hold by chance once in a thousand bursts."""
        report = um.receive_sync(soft) if soft is not None else None
        said = um.read_sch(report.accepted) if report and report.accepted and report.wrong_training <= 16 else None
        if not said:
            return
        before, self.candidate = self.candidate, (said.bsic, (said.frame - tick) % um.FRAMES)
        if before == self.candidate:
            self.bsic, self.offset = self.candidate
            self.fn = said.frame
            self.say(f"SCH: BSIC {said.bsic}, frame {said.frame}")

    def hear_block(self, block):
        """A block of BCCH, CCCH, or of the dedicated channel."""
        octets = block.report.accepted
        if block.channel == um.SACCH:
            self.patience = min(self.patience + 2, RADIO_LINK_TIMEOUT) if octets else self.patience - 1
        if octets:
            take = {Channel.BCCH: self._broadcast, Channel.CCCH: self._common, um.SACCH: self._slow}
            take.get(block.channel, self._signalling)(octets)

    def speak(self):
        """The 148 bits to send on time slot `tn` in this frame, or None."""
        if self.kind is None:
            return None
        if self.number is None:
            return self._access() if self.channel.may_access(self.fn) else None
        if self.access is not None:
            return self._burst(self.access) if self.channel.is_main(self.fn) else None
        channel = self.channel
        burst = channel.speak(self.fn, self.tsc, self._next_block)
        return burst if self.channel is channel else None  # a notice may have moved the mobile to another

    def _burst(self, ra):
        return um.send_access(um.write_ra(ra), um.write_bsic(self.bsic)).ljust(148, b"\0")

    # -- BCCH and CCCH: RR messages after the octet of the pseudo length

    def _broadcast(self, block):
        if block[1:3] == b"\x06\x1b" and self.lai is None:  # SYSTEM INFORMATION TYPE 3
            self.lai, combined = block[5:10], block[10] & 7 == 1
            self.say(f"SI 3: location area {self.lai.hex()}, {'SDCCH/4' if combined else 'no SDCCH'} on time slot 0")
            self.common = "bcch_ccch_sdcch4" if combined else "bcch_ccch"
            self.channel = Common(self.common, self.words)

    def _common(self, block):
        if block[1] != 6:
            return
        if block[2] in (0x21, 0x22, 0x24) and self.kind is None:  # PAGING REQUEST 1 to 3
            if self.tmsi and self.tmsi in block or self.imsi in block:
                self.begin("page", b"\x06\x27\x07" + CLASSMARK + self._identity())
        elif block[2] == 0x3F and block[7:10] in self.accesses[-3:]:  # IMMEDIATE ASSIGNMENT
            self._assigned(block[4:7])

    # -- the session: access, the channel, and its end

    def _identity(self):
        """A mobile identity with its length: the TMSI, or else the IMSI."""
        return b"\x05\xf4" + self.tmsi if self.tmsi else b"\x08" + self.imsi

    def update(self):
        """Begins a location updating."""
        self.begin("update", b"\x05\x08\x72" + self.lai + b"\x33" + (self._identity() if self.tmsi else b"\x05\xf4" + random.randbytes(4)))

    def detach(self):
        """Begins an IMSI detach."""
        self.begin("detach", b"\x05\x01\x33" + self._identity())

    def message(self, number, text):
        """Begins a short message of 1 to 140 octets to a telephone number; in a call it is sent beside the call."""
        self.data, self.asked = submit(number, text), "message"
        request = b"\x05\x24\x74" + CLASSMARK + self._identity()
        self.send(0, request) if self.call else self.begin("message", request)

    def dial(self, number):
        """Begins a call to a telephone number."""
        self.dialled, self.asked = number, "call"
        self.begin("call", b"\x05\x24\x71" + CLASSMARK + self._identity())

    def begin(self, kind, first):
        """Asks for a channel, on which `first` is the message of the SABM."""
        self.kind, self.first, self.accesses, self.next_access = kind, first, [], self.fn + random.randrange(2, 40)

    def _access(self):
        if self.fn < self.next_access:
            return None
        if len(self.accesses) == ACCESSES:
            return self.ended("no assignment")
        ra = CAUSES[self.kind] | random.randrange(16)
        self.accesses.append(request_reference(ra, self.fn))
        self.next_access = self.fn + random.randrange(110, 180) + (300 if len(self.accesses) == ACCESSES else 0)
        return self._burst(ra)

    def _assigned(self, description):
        self.say(f"assigned channel {description[0]:02x}")
        try:
            channel = channel_of(description[0], self.words)
        except UnknownChannel as why:
            return self.ended(f"assigned what it does not know: {why}")
        self.since, self.leave, self.closed, self.done, self.accepted = self.fn, None, None, False, False
        self.count = 1 if self.kind == "page" else 0  # N(SD) of the message before: PAGING RESPONSE is not counted
        t200 = self.t200 if channel.main == um.SDCCH else (T200_FACCH[channel.rate],)
        self._tune(description[0], description[1] >> 5, channel, um.DataLink("mobile", um.SDCCH, *t200))
        self.link.open(self.first)

    def _tune(self, number, tsc, channel, link):
        """Goes to a dedicated channel. A traffic channel has SAPI 3 on its SACCH."""
        self.number, self.tsc, self.channel, self.link = number, tsc, channel, link
        self.slow_link = um.DataLink("mobile", um.SACCH, T200_SACCH, T200_SACCH) if channel.main == Channel.FACCH else None
        self.order, self.reports, self.patience, self.spare = b"\0\0", 0, RADIO_LINK_TIMEOUT, None

    def how_over(self, free):
        """How the session ended, if it did; `free`: no frame is to be sent now."""
        if self.closed and free:
            return "complete" if self.closed == "released" and self.done else self.closed
        if self.leave and self.fn >= self.leave:
            return "complete" if self.done else "released"
        return "radio link timeout" if self.patience <= 0 else "took a minute" if self.fn > self.since + LONGEST else None

    def ended(self, how):
        """The session is over."""
        if how == "complete" and self.kind == "detach":
            self.tmsi = None
        self.say(f"{self.kind}: {how}")
        self._idle()

    # -- another channel

    def _change(self, change):
        """Leaves for another channel, and keeps the old one to return to it. What the network did not acknowledge is sent again there."""
        try:
            channel = channel_of(change.number, self.words)
        except UnknownChannel as why:
            self.say(f"stays: {why}")
            return self.send(0, change.failure)
        self.old = self.number, self.tsc, self.channel, self.link, self.arfcn, self.bsic, change.failure
        self.again, self.announced = self.link.unacked(0), change.complete
        channel.is_speech = self.channel.is_speech if change.is_speech is None else change.is_speech
        t200 = self.t200 if channel.main == um.SDCCH else (T200_FACCH[channel.rate],)
        self.channel.leave()
        self.arfcn, self.is_moving = change.arfcn, True
        self._tune(change.number, change.tsc, channel, um.DataLink("mobile", um.SDCCH, *t200, establishment="normal"))
        if change.reference is None:
            return self.link.establish(0)
        self.bsic, self.access, self.access_until = change.bsic, change.reference, self.fn + T3124

    def _return(self, why):
        """The new channel failed: back to the old one."""
        self.say(f"returns to channel {self.old[0]:02x}: {why}")
        number, tsc, channel, link, self.arfcn, self.bsic, self.announced = self.old
        self._tune(number, tsc, channel, link)
        self.access = self.old = None
        self.link.establish(0)

    def _is_established(self):
        """The link of a new channel, or of the old one after a return, is open."""
        self.old, again, self.again, self.is_moving = None, self.again, [], False
        for message in (self.announced, *again):  # with the N(SD) that they had
            self.repeat(message)
        self._may_ring()

    def _may_ring(self):
        if self.call and self.channel.main == Channel.FACCH and self.link.state(0) == "open":
            self.call.ring()

    # -- the dedicated channel

    def _signalling(self, block):
        try:
            frame = um.read_frame(block)
        except um.NoFrame as why:
            return self.say(f"not a frame: {why}")
        if frame.kind != "ui" or frame.info:
            self.say(f"hears {self.channel.name} {describe(frame)}")
        self._report_notices(self.link.take(block))

    def _next_block(self, channel):
        """The block that begins on SACCH, or on SDCCH or FACCH; None if nothing is to be sent."""
        if channel == um.SACCH:
            return self._next_slow()
        sent = self.link.next()
        self._report_notices(sent.notices)
        how = self.how_over(sent.free)
        if how:
            return self.ended(how)
        if sent.free:
            block, self.spare = self.spare, None
            if block:
                self.sends(self.channel.name, um.read_frame(block))
            return block or (None if self.channel.is_speech else sent.block)
        frame = um.read_frame(sent.block)
        self.sends(self.channel.name, frame)
        self.spare = sent.block if self.twice and frame.kind == "rr" and not frame.pf else None
        return sent.block

    def sends(self, name, frame):
        """A frame that is not fill or a report goes on the air."""
        self.say(f"sends {name} {describe(frame)}")

    def _report_notices(self, notices):
        for sapi, notice in notices:
            self.notice(sapi, notice)

    def _slow(self, block):
        self.order = block[:2]  # of power and timing advance; they are confirmed in the next block
        frame = um.read_frame(block, um.SACCH)
        if self.slow_link and (frame.sapi == 3 or frame.kind != "ui"):
            self.say(f"hears SACCH {describe(frame)}")
            return self._report_notices(self.slow_link.take(block))
        return self.heard_slow(frame)

    def heard_slow(self, frame):
        """A frame of SACCH: SYSTEM INFORMATION 5 and 6."""

    def _next_slow(self):
        """The block of SACCH: a frame of SAPI 3, or else a measurement report."""
        if self.slow_link:
            self.slow_link.main(self.link.state(0) == "open")
            sent = self.slow_link.next(self.order)
            self._report_notices(sent.notices)
            if not sent.free:
                self.sends("SACCH", um.read_frame(sent.block, um.SACCH))
                return sent.block
        return self._report()

    def _report(self):
        """A MEASUREMENT REPORT, with the level and quality of this block's number."""
        self.reports += 1
        report = b"\x06\x15" + bytes([self.reports & 63] * 2) + bytes(14)
        return self.order + um.write_frame(um.Frame("ui", info=report), um.SACCH)[2:]

    def notice(self, sapi, notice):
        """What a link reports."""
        if notice.kind == "opened" and sapi == 3 and self.accepted:
            self.send(3, self.data)
        elif notice.kind == "opened" and sapi == 0 and self.announced:
            self._is_established()
        elif notice.kind == "got":
            self._take(notice.message) if sapi == 0 else self._short_message(notice.message)
        elif notice.kind == "unit" and notice.message[:2] == b"\x06\x2d" and self.access is not None:  # PHYSICAL INFORMATION
            self.access = None
            self.link.establish(0)
        elif notice.kind == "closed" and sapi == 0:
            self._is_closed(notice.reason)

    def _is_closed(self, reason):
        if self.old:
            return self._return(f"the link {reason}")
        self.closed = reason
        return None

    # -- layer 3: radio resources, mobility management, calls, and short messages on SAPI 3

    def send(self, sapi, message):
        """Gives a message to a link. Those of mobility management and call control are counted together, in a bit."""
        if message[0] & 15 in (3, 5):
            self.count ^= 1
            message = bytes([message[0], message[1] | self.count << 6]) + message[2:]
        self.repeat(message, sapi)

    def repeat(self, message, sapi=0):
        """Gives a message to a link as it is; to the main link while the channel changes, it waits."""
        if sapi == 0 and self.is_moving:
            self.again.append(message)
        elif self._link_of(sapi).state(sapi) == "open":
            self._link_of(sapi).send(sapi, message)

    def _link_of(self, sapi):
        return self.slow_link if sapi == 3 and self.slow_link else self.link

    def _take(self, message):
        take = {6: self._radio_resources, 5: self._mobility, 3: self._call_control}
        take[message[0] & 15](message)

    def _radio_resources(self, message):
        kind = message[1]
        if kind == 0x0D:  # CHANNEL RELEASE
            self.done, self.leave = self.done or self.kind == "detach", self.fn + T3110
            self._link_of(3).close_local(3)
            self.link.close(0)
        elif kind == 0x2E:
            self._change(read_assignment(message))
        elif kind == 0x2B:
            self._change(read_handover(message))
        elif kind == 0x10:  # CHANNEL MODE MODIFY
            self.channel.is_speech = message[5] != 0
            self.send(0, b"\x06\x17" + message[2:6])
            self._may_ring()

    def _mobility(self, message):
        kind = message[1] & 0x3F
        if kind == IDENTITY:
            self.send(0, b"\x05\x19\x08" + self.imsi)
        elif kind == UPDATED:
            self.done, self.tmsi = True, message[10:14]
            self.send(0, b"\x05\x1b")  # TMSI REALLOCATION COMPLETE
        elif kind == CM_ACCEPTED and self.asked == "call":
            self.call = Call(self.send, self.rate)
            self.call.begin(self.dialled)
        elif kind == CM_ACCEPTED:
            self.accepted = True
            state = self._link_of(3).state(3)
            if state == "open":  # the network opened it, for a message to this mobile
                self.send(3, self.data)
            elif state in ("idle", "closed"):
                self._link_of(3).open_bare()
        elif kind in REJECTED:
            self.tmsi = None

    def _call_control(self, message):
        if self.call is None:
            self.call = Call(self.send, self.rate)
        self.call.take(message)
        self.done = self.call.state == "over" and self.call.was_active
        self._may_ring()

    def _short_message(self, message):
        what, answers = answer(message)
        if what == "text":
            self.received(message)
        if what:
            self.accepted = self.accepted and what == "text"
            self.done = self.done or not self.call and (what == "accepted" or self.kind == "page")
        for each in answers:
            self.send(3, each)

    def received(self, message):
        """A short message has come."""
        self.say("short message " + message.hex())
