"""The channels of a mobile, between the bursts of a time slot and blocks: BCCH, CCCH and RACH; SDCCH; traffic channels with FACCH.

Each has `hear`, which takes a burst and returns the blocks that are then complete, and `speak`, which returns the burst to send; it asks
`next_block` for the block of a channel that begins, 23 octets or None."""
import um
from um import Channel


class UnknownChannel(ValueError):
    """A channel number that is not of an SDCCH or a traffic channel."""


def channel_of(number, words):
    """The dedicated channel with a channel number (44.018, 10.5.2.5)."""
    kind, tn = number >> 3, number & 7
    if kind == 1:
        return Traffic("full_rate", "tch_f", 0, tn, words)
    if kind >> 1 == 1:
        return Traffic(f"half_rate_{kind & 1}", "tch_h", kind & 1, tn, words)
    if kind >> 2 == 1 or kind >> 3 == 1:
        combination, subchannel = ("bcch_ccch_sdcch4", kind & 3) if kind >> 2 == 1 else ("sdcch8", kind & 7)
        return Sdcch(combination, subchannel, tn, um.Slot(combination, "downlink", tn, words))
    raise UnknownChannel(f"channel number {number:02x}: of {kind:05b}; expected 00001 TCH/F, 0001x TCH/H, 001xx SDCCH/4 or 01xxx SDCCH/8")


class Common:
    """BCCH and CCCH of time slot 0, and RACH."""

    def __init__(self, combination, words):
        self.combination, self.tn, self.receiver = combination, 0, um.Slot(combination, "downlink", 0, words)

    def is_mine(self, place):
        return place is not None and place.channel in (Channel.BCCH, Channel.CCCH, Channel.RACH)

    def hear(self, fn, soft):
        block = self.receiver.take(fn, soft) if self.is_mine(um.place_frame(self.combination, "downlink", 0, fn)) else None
        return [block] if block else []

    def may_access(self, fn):
        return self.is_mine(um.place_frame(self.combination, "uplink", 0, fn))


class Sdcch:
    """An SDCCH with its SACCH."""

    name, main, is_speech = "SDCCH", um.SDCCH, False

    def __init__(self, combination, subchannel, tn, receiver):
        self.combination, self.subchannel, self.tn, self.receiver, self.bursts = combination, subchannel, tn, receiver, {}

    def place(self, direction, fn):
        """The place of a frame's burst of SDCCH or SACCH; None if it is of another channel."""
        place = um.place_frame(self.combination, direction, self.tn, fn)
        is_mine = place and place.channel in (um.SDCCH, um.SACCH) and place.subchannel == self.subchannel
        return place if is_mine else None

    def leave(self):
        """What was not sent yet is not sent after a return."""
        self.bursts = {}

    def is_main(self, fn):
        """Whether the burst of this frame is of SDCCH, and not of SACCH."""
        place = self.place("uplink", fn)
        return place is not None and place.channel == self.main

    def hear(self, fn, soft):
        block = self.receiver.take(fn, soft) if self.place("downlink", fn) else None
        return [block] if block else []

    def speak(self, fn, tsc, next_block):
        place = self.place("uplink", fn)
        if place is None:
            return None
        if place.burst == 0:
            block = next_block(place.channel)
            self.bursts[place.channel] = um.send_block(block, tsc) if block else None
        bursts = self.bursts.get(place.channel)
        return bursts[place.burst] if bursts else None


class Traffic(Sdcch):
    """A traffic channel: FACCH in halves of bursts that it steals from speech, and SACCH. `speech`, if there is one, is asked for each
    block of speech with the frame number and the training sequence, and says the four joined bursts that `um.TrafficSender` takes. Without
    it nothing is sent between blocks of FACCH. `is_speech`: what the channel is for."""

    main = Channel.FACCH

    def __init__(self, rate, combination, subchannel, tn, words):
        super().__init__(combination, subchannel, tn, um.Traffic(rate, "downlink", tn, words))
        self.rate, self.name = rate, "FACCH/F" if rate == "full_rate" else "FACCH/H"
        self.sender, self.is_speech, self.speech = None, False, None

    def leave(self):
        super().leave()
        self.sender = None

    def is_main(self, fn):
        return um.place_traffic(self.rate, "uplink", fn) is not None

    def hear(self, fn, soft):
        return [each.block for each in self.receiver.take(fn, soft) if each.kind != "speech"]

    def speak(self, fn, tsc, next_block):
        place = um.place_traffic(self.rate, "uplink", fn)
        if place is None:
            return super().speak(fn, tsc, next_block)
        self.sender = self.sender or um.TrafficSender(self.rate, "uplink", tsc)
        if place.begins is not None:
            block = next_block(self.main)
            if block:
                self.sender.facch(block)
            elif self.speech and self.is_speech:
                self.sender.speech(self.speech(fn, tsc))
        return self.sender.burst(fn)
