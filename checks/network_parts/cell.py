"""The cells: frame by frame, in real time, between the base stations and twenty mobiles; and the account of what happened."""
import collections
import glob
import os
import random
import selectors
import time

import um
from air import SOFT, Air
from rsl import Rsl
from trx import Transceiver
from watched import BSICS, TSCS, Watched

FRAME = 60 / 13000  # seconds
CLOCK = 13  # frames between indications of the clock: a base station that did not run for 50 ends itself, unless one waits for it
SKEW = 50  # a base station begins its frames when the clock is more than this ahead of 0
LAG = 15  # frames from a burst's time to when it is heard, so that the base station may be late; its answer leaves 28 frames after a block


def receivers(combination, way, tn):
    """The receivers of a time slot's blocks; of a traffic channel, of SACCH. Those of TCH/H are where a neighbour's TCH/F has its own."""
    return [um.Slot("tch_f", way, tn & 6 | half) for half in (0, 1)] if combination == "tch_h" else [um.Slot(combination, way, tn)]


def taken(slots, fn, soft):
    """The block that a burst completes, or None."""
    return next(filter(None, [slot.take(fn, soft) for slot in slots]), None)


class Station:
    """A base station: what it says on Abis, its transceiver, and what it sent on each time slot in this frame: a burst, and the block that
    it ends."""

    def __init__(self, log, number, select, combinations):
        self.rsl, self.number = Rsl(lambda who, text: log(f"{number}{who}" if number else who, text)), number
        self.radio = Transceiver(self.rsl, number, select)
        self.downlink, self.uplink = ([receivers(each, way, tn) for tn, each in enumerate(combinations)] for way in um.DIRECTIONS)
        self.bursts = self.blocks = [None] * 8

    def collect(self, fn):
        """Takes this frame's bursts from the transceiver."""
        self.bursts = [self.radio.bursts.pop((tn, fn), None) for tn in range(8)]
        self.blocks = [taken(slots, fn, sent and sent.translate(SOFT)) for slots, sent in zip(self.downlink, self.bursts)]


class Cell:
    def __init__(self, options):
        self.options, self.fn, self.trace = options, 0, open("trace.log", "w", buffering=1)
        self.wrong, self.outcomes, self.counts, self.begun = [], collections.Counter(), collections.Counter(), 0
        self.texts, self.verdicts, self.due, self.select = set(), {}, [], selectors.DefaultSelector()
        self.combinations = options.layout.split()
        self.stations = [Station(self.log, number, self.select, self.combinations) for number in range(options.cells)]
        # how many more calls there may be at each rate: each takes two channels
        self.room = {"full": self.combinations.count("tch_f") // 2, "half": self.combinations.count("tch_h")}
        self.air = Air(options.block, options.burst, options.bit, options.noise)
        self.last_busy, self.latest, self.station = 0, 0, None
        self.mobiles = [Watched(self, index) for index in range(options.mobiles)]
        self.zero = time.monotonic()

    def log(self, who, text):
        print(self.fn, who, text, file=self.trace)
        if self.options.show:
            print(self.fn, who, text, flush=True)

    def expect(self, holds, text):
        if not holds:
            self.wrong.append(f"frame {self.fn}: {text}")
            self.log("WRONG", text)

    def later(self, frames, act):
        """Calls `act` in so many frames."""
        self.due.append((self.fn + frames, act))

    # -- a frame

    def frame(self, fn):
        self.fn = fn
        for due, act in [each for each in self.due if each[0] <= fn]:
            self.due.remove((due, act))
            act()
        if fn % 51 == 0:
            self.begin_sessions()
        for station in self.stations:
            if fn % 51 == 0:
                self.drop_late(station.radio.bursts)
            station.collect(fn)
        place = um.place_frame(self.combinations[0], "downlink", 0, fn)
        if self.stations[0].bursts[0] and place and place.channel == um.Channel.SCH:
            self.hear_sync(self.stations[0].bursts[0], fn)
        up = [[[] for _ in range(8)] for _ in self.stations]
        for mobile in self.mobiles:
            mobile.frame(fn)
            burst = mobile.speak()
            if burst:
                up[mobile.station.number][mobile.tn].append((burst, mobile))
        for station in self.stations:
            for tn in range(8):
                self.send_up(station, tn, fn, up[station.number][tn])

    def drop_late(self, bursts):
        for late in [place for place in bursts if place[1] < self.fn]:
            self.counts["bursts that came too late"] += 1
            del bursts[late]

    def hear_sync(self, burst, fn):
        """SCH over the air. Ten bits of CRC do not detect all errors, so an accepted burst may be another than was sent."""
        report = um.receive_sync(self.air.carry(burst, "sch", fn) or bytes(148))
        if report.accepted and report.accepted != um.receive_sync(burst.translate(SOFT)).accepted:
            self.counts["SCH accepted wrongly"] += 1
            return
        self.counts["SCH accepted" if report.accepted else "SCH rejected"] += 1
        if report.accepted:
            said = um.read_sch(report.accepted)
            self.expect(said and (said.bsic, said.frame) == (BSICS[0], fn), f"SCH {said}")

    def send_up(self, station, tn, fn, said):
        """One of the mobiles that send at once drowns the others for the whole block."""
        if not said:
            return station.radio.give(tn, fn, None, 0)
        place = um.place_frame(self.combinations[tn], "uplink", tn, fn)
        first = self.group(fn) if self.combinations[tn].startswith("tch") else place.first
        burst, mobile = random.Random(first).choice(said)
        self.counts["collisions"] += len(said) > 1
        soft = self.air.carry(burst, (station.number, tn, mobile.index, "up"), first)
        is_access = mobile.access is not None or mobile.number is None
        station.radio.give(tn, fn, soft, 0 if is_access else TSCS[station.number])
        block = None if is_access else taken(station.uplink[tn], fn, soft)
        is_certain = len(said) == 1 and station is self.stations[0]
        if block and is_certain and block.first == place.first and block.channel.name.lower() in mobile.truth.active:
            self.verdicts[tn, fn] = block.report.accepted is not None
        return None

    def group(self, fn):
        """Which frames of a traffic channel fade together: each four between those of SACCH, or `fade` frames."""
        return fn // self.options.fade if self.options.fade else fn // 13 * 3 + fn % 13 // 4

    # -- the run

    def begin_sessions(self):
        """At most two in a multiframe, since a mobile needs a block of CCCH."""
        idle = [mobile for mobile in self.mobiles if not mobile.kind and mobile.lai]
        for _ in range(2):
            if self.begun < self.options.sessions and sum(bool(mobile.kind) for mobile in self.mobiles) < self.options.busy and idle:
                mobile = idle.pop(random.randrange(len(idle)))
                kind = random.choice(self.options.kinds.split()) if mobile.tmsi else "update"
                if mobile.partner or kind == "call" and not self.to_call(mobile, idle):
                    continue
                if kind == "call":
                    mobile.call_to(random.choice(self.to_call(mobile, idle)))
                elif kind == "message":
                    text = self.options.text.encode() or random.randbytes(random.randrange(1, 141))
                    self.texts.add(text)
                    others = [other for other in self.mobiles if not other.partner]
                    mobile.message("%05d" % (10000 + random.choice(others).index), text)
                else:
                    getattr(mobile, kind)()
                self.begun += 1
                if idle and random.random() < self.options.twins:
                    idle[-1].update()
                    idle.pop().follow(mobile)

    def to_call(self, mobile, idle):
        """The mobiles that this one may call: they are idle, and speak at the same rate, for which there are channels."""
        is_fit = lambda other: other.tmsi and other.rate == mobile.rate and not other.partner and other.idle_since < self.fn - 500
        return list(filter(is_fit, idle)) if self.room[mobile.rate] else []

    def call_over(self, rate):
        def act():
            self.room[rate] += 1
        return act

    def now(self):
        return int((time.monotonic() - self.zero) / FRAME)

    def is_busy(self):
        return self.begun < self.options.sessions or any(mobile.kind for mobile in self.mobiles)

    def is_running(self):
        if self.is_busy():
            self.last_busy = self.fn
        at_work = self.fn <= self.last_busy + self.options.linger
        over = any(station.radio.over for station in self.stations) or (self.station and self.station.poll() is not None)
        return at_work and not over and self.now() * FRAME < self.options.seconds

    def tell_time(self, started):
        """Tells the base stations the time, in a process of its own. `started` is called in it first."""
        if os.fork():
            return
        started()
        while True:
            number = max(self.now(), SKEW) // CLOCK + 1
            time.sleep(max(0, self.zero + number * CLOCK * FRAME - time.monotonic()))
            for station in self.stations:
                station.radio.tell_time(self.now() % um.FRAMES)

    def run(self):
        last = -1
        while self.is_running():
            self.serve(max(0, self.zero + (last + 1 + LAG) * FRAME - time.monotonic()))
            for last in range(last + 1, self.now() - LAG + 1):
                self.latest = max(self.latest, self.now() - LAG - last)
                self.serve(0)
                self.fn = last
                if all(station.radio.on for station in self.stations):
                    self.frame(last % um.FRAMES)
        self.trace.close()
        return self.account(last)

    def serve(self, seconds):
        """Serves the sockets that are readable, after at most this time."""
        for key, _ in self.select.select(seconds):
            key.data()

    def account(self, frames):
        """What happened, as numbers. `blocks` are those of the uplink by um's verdict and the base station's. `missed`: the most frames for
        which a base station did not run; it ends itself at 50. `latest`: by how many frames this program was late."""
        bad, reasons, missed = set(), [], 0
        for name in glob.glob("osmo-bts-trx*.log"):
            for line in open(name, errors="replace"):
                if "hutting down" in line:
                    reasons.append(line.strip())
                if "expire_count=" in line:
                    missed = max(missed, int(line.split("expire_count=")[1].split(":")[0]) - 1)
                if name == "osmo-bts-trx.log" and ("Received bad data" in line or "Received incomplete" in line):
                    bad.add((int(line.split(",ts=")[1][0]), int(line.split()[2].split("/")[0])))
        blocks = collections.Counter(f"{'a' if ok else 'r'}{'r' if place in bad else 'a'}" for place, ok in self.verdicts.items())
        return {
            "ended": any(station.radio.over for station in self.stations) or self.station.poll() is not None, "reason": "; ".join(reasons[:1]),
            "unfinished": self.is_busy(), "wrong": self.wrong, "begun": self.begun, "frames": frames, "processor": time.process_time(),
            "missed": missed, "latest": self.latest,
            "outcomes": [[kind, how, count] for (kind, how), count in sorted(self.outcomes.items())],
            "counts": self.counts, "blocks": blocks,
        }
