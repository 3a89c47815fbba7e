"""A mobile and a network over a noisy path that loses blocks: each block is sent as four bursts, with noise, and decoded again. The
mobile opens the link, both send messages, and the mobile releases the link.

Time advances in slots of 235 ms, in which each endpoint sends one SDCCH block. T200 counts from the time at which a block that awaits
an answer goes on the air, and exceeds the round trip with the blocks queued before it.

    PYTHONPATH=bindings/python python3 examples/python/session.py"""
import collections
import sys

import um
from air import Air

SLOT, T200, SLOTS = 235, 4, 200


class Side:
    def __init__(self, role):
        self.name, self.end = role, um.End(role)
        self.queue = collections.deque()
        self.now = 0
        self.timer = 0  # slots until T200 expires, or 0 if it does not run
        self.told = collections.Counter()

    def say(self, what):
        print(f"{self.now:5} ms  {self.name:7} {what}")

    def apply(self, effects):
        self.queue.extend(effects.frames)
        for kind, value in effects.notices:
            self.told[kind] += 1
            if kind == "opened":
                self.say("is open")
            elif kind == "got":
                self.say(f"got a message of {len(value)} octets")
            elif kind == "acked":
                self.say(f"has message {value} acknowledged")
            elif kind == "closed":
                self.say("is closed" if value == "released" else "has failed")

    def slot(self, air, other, now):
        """Runs one slot of an endpoint: T200 may expire, and the first queued block goes on the air."""
        self.now = other.now = now
        if self.timer:
            self.timer -= 1
            if self.timer == 0:
                self.expire()
        if not self.queue:
            return
        sent = self.queue.popleft()
        octets = received(air, sent)
        kind = um.read_frame(sent).kind
        self.say(f"sends {kind}{'' if octets else ', which is lost'}")
        if kind in ("sabm", "disc", "i"):
            self.timer = T200
        if octets:
            other.apply(other.end.take(octets))

    def expire(self):
        try:
            effects = self.end.timer()
        except um.Refused:  # no frame awaits an answer any more
            return
        self.say("T200 expires")
        self.apply(effects)


def received(air, sent):
    """Sends a block over the noisy path; one in four fades. None if it is lost."""
    strength = 250 if air.random() >> 30 == 0 else 40
    return um.receive_block(air.soften(um.send_block(sent, tsc=7), strength)).accepted


def run():
    air, mobile, network = Air(), Side("mobile"), Side("network")
    mobile.apply(mobile.end.open(bytes(range(9))))
    for at in range(SLOTS):
        if mobile.told["closed"] and network.told["closed"]:
            break
        mobile_was, network_was = mobile.told["opened"], network.told["opened"]
        was_done = mobile.told["acked"] == 2 and network.told["acked"] == 1
        mobile.slot(air, network, at * SLOT)
        network.slot(air, mobile, at * SLOT)
        if mobile.told["opened"] > mobile_was:
            mobile.apply(mobile.end.send(bytes(range(5))))
            mobile.apply(mobile.end.send(bytes(range(60))))
        if network.told["opened"] > network_was:
            network.apply(network.end.send(bytes(range(30))))
        if not was_done and mobile.told["acked"] == 2 and network.told["acked"] == 1:
            mobile.apply(mobile.end.close())
    return mobile.told["closed"] == network.told["closed"] == mobile.told["got"] == 1 and network.told["got"] == 2


is_well = run()
print("each message arrived exactly once" if is_well else "something is missing")
sys.exit(not is_well)
