"""Runs of the network, each in a namespace of its own: what checks/network tests, one run with options, one session to read, and a table.

    checks/network [whole | run OPTIONS | show | call | long SESSIONS | calls CALLS]"""
import argparse
import collections
import concurrent.futures
import json
import os
import shutil
import signal
import subprocess
import sys
import tempfile
import time

INSIDE = os.path.join(os.path.dirname(os.path.abspath(__file__)), "inside.py")
MEMORY = "/dev/shm"  # the programs wait for each write of their data bases
PAUSES = 0, 20, 60  # seconds before each try of a run: what keeps a machine busy may be over then
LATE = 10  # frames: more is too late for T200 of the mobiles on FACCH
SIGNALLING = "bcch_ccch_sdcch4" + 7 * " sdcch8"
TALKING = "bcch_ccch_sdcch4 sdcch8 tch_f tch_f tch_f tch_f tch_h tch_h"
CROWDED = "bcch_ccch_sdcch4 tch_f tch_f tch_f tch_f tch_f tch_h tch_h"
OPTIONS = (
    ("sessions", 40, "sessions that mobiles begin, besides answers to pages"), ("mobiles", 20, "mobiles"),
    ("busy", 12, "mobiles that have a session at a time"), ("kinds", "update message message detach", "what they choose from"),
    ("text", "", "text of each short message; without it random octets"), ("linger", 0, "frames to wait for pages after the last session"),
    ("seconds", 300.0, "longest run"), ("seed", 1, "seed"), ("block", 0.0, "share of blocks lost"), ("burst", 0.0, "share of bursts lost"),
    ("bit", 0.0, "share of bits flipped"), ("noise", 0.0, "standard deviation of noise added to the bits, which are -1 and 1"),
    ("twins", 0.0, "share of accesses that a second mobile makes too, so that both contend for the channel"),
    ("t200", 2, "T200 of the mobiles on SAPI 0, in slots"), ("t200_sapi3", 2, "the same on SAPI 3"),
    ("among", 64, "words that a mobile tries for a block"),
    ("station", 0, "words that the base station tries, by libum_osmo.so; 0: it decodes by libosmocoding"),
    ("layout", SIGNALLING, "the channel combinations of the time slots"),
    ("cells", 1, "base stations, 1 or 2; the second is for handovers"),
    ("ring", 100, "frames until a call is answered"), ("talk", 400, "frames of a talk, at least"),
    ("speech", 1, "0: silence, nothing is sent between blocks of FACCH"),
    ("sms", 0, "octets of a short message that each caller sends beside the call"),
    ("handovers", 0, "handovers of each caller, to the other cell and back"),
    ("fail", 0.0, "share of assignments and handovers whose new channel is dead"),
    ("twice", 0, "1: a mobile says an RR with F = 0 once more in the next slot, if it is free"),
    ("fade", 0, "frames of a traffic channel that are lost together; 0: the four between those of SACCH"),
    ("show", 0, "1: print each event"),
)
DEFAULTS = {name: default for name, default, _ in OPTIONS}
QUICK = (("noise and lost blocks", dict(noise=0.65, block=0.03, twins=0.1)),)
FULL = (
    ("noise and lost blocks", dict(noise=0.65, block=0.03, twins=0.1)),
    ("lost blocks and bursts", dict(block=0.05, burst=0.1, twins=0.2)),
    ("4 % of bits flipped, the base station with libum_osmo.so", dict(bit=0.04, station=64)),
    ("noise of sigma 0.75, the base station with libum_osmo.so", dict(noise=0.75, station=64)),
)
TALK = dict(layout=TALKING, kinds="call", mobiles=10, sessions=18)  # first each mobile updates its location
MORE = dict(TALK, sessions=34)
QUICK_CALLS = (
    ("calls with handovers there and back", dict(TALK, cells=2, handovers=2), 0.9),
    ("calls, 5 % of bits flipped, the base station with libum_osmo.so", dict(TALK, bit=0.05, station=64), 0.9),
)
CALLS = tuple((name, dict(options, sessions=34), least) for name, options, least in QUICK_CALLS) + (
    ("calls, 5 % of bits flipped", dict(MORE, bit=0.05), 0.5),
    ("calls, 5 % of groups of 4 frames lost", dict(MORE, block=0.05), 0.8),
    ("calls, 5 % of multiframes lost, with handovers", dict(MORE, block=0.05, fade=26, cells=2, handovers=2), 0.5),
    ("calls in silence, a quarter of the new channels dead", dict(MORE, fail=0.25, speech=0), 0.3),
    ("calls with a short message beside each", dict(TALK, sms=40, talk=2500), 0.9),
    ("calls on channels assigned at once", dict(MORE, layout=CROWDED), 0.5),
)
AIRS_OF_CALLS = (
    ("clear", {}), ("clear, handovers there and back", dict(cells=2, handovers=2)),
    ("5 % of bits flipped, osmo-bts decodes by libosmocoding", dict(bit=0.05)),
    ("5 % of bits flipped, by `um`, 64 words", dict(bit=0.05, station=64)),
    ("5 % of groups of 4 frames lost", dict(block=0.05)), ("5 % of multiframes lost", dict(block=0.05, fade=26)),
    ("clear, half of the new channels dead", dict(fail=0.5)),
)
RATES = {"full": "F", "half": "H"}
LONG = (
    ("clear", {}), ("10 % of blocks lost", dict(block=0.1)), ("20 % of bursts lost", dict(burst=0.2)),
    ("4 % of bits flipped", dict(bit=0.04)), ("noise, sigma 0.7", dict(noise=0.7)),
)
TIMES = ((2, 2), (2, 4), (4, 6))  # T200 on SAPI 0 and SAPI 3
NOISY = (("4 % of bits flipped", dict(bit=0.04)), ("noise, sigma 0.75", dict(noise=0.75)))
DECODERS = ((0, "libosmocoding"), (1, "`um`, one word"), (64, "`um`, 64 words"))


class Run:
    """One run with these options; a try that is void is followed by another. `results` are the accounts of all tries."""

    def __init__(self, given, options, least=0.0):
        self.options, self.least, self.results, self.failure = {**DEFAULTS, **options}, least, [], ""
        begun = time.monotonic()
        for number, pause in enumerate(PAUSES):
            time.sleep(pause)
            self._start(given, dict(self.options, seed=self.options["seed"] + number))
            if self.failure or self.whole:
                break
        self.seconds = time.monotonic() - begun

    def _start(self, given, options):
        environment = dict(os.environ, UM_OSMO_AMONG=str(options["station"] or 1))
        options = json.dumps(dict(options, sctp=given.sctp, preload=given.preload))
        folder = tempfile.mkdtemp(prefix="network-", dir=MEMORY if os.access(MEMORY, os.W_OK) else None)
        try:
            child = subprocess.Popen([*given.own.split(), sys.executable, INSIDE, options], cwd=folder, env=environment,
                                     stdout=subprocess.PIPE, text=True)
            try:
                for line in child.stdout:
                    if line.startswith("{"):
                        self.results.append(json.loads(line))
                    else:
                        print(line, end="", flush=True)
                self.failure = "" if child.wait() == 0 else f"status {child.returncode}"
            finally:
                child.kill()
        finally:
            if given.keep:
                print(f"network: logs in {folder}")
            else:
                shutil.rmtree(folder, ignore_errors=True)

    def total(self, name):
        """The counts of the last try."""
        return collections.Counter(self.results[-1][name] if self.results else {})

    @property
    def whole(self):
        """Whether the last try is not void: if the base station ended itself, or if something is amiss while the machine was late, so that
        the mobiles' T200 was too short, it says nothing."""
        last = self.results[-1] if self.results else {"ended": True}
        return not last["ended"] and (max(last["missed"], last["latest"]) <= LATE or not self.is_amiss)

    @property
    def is_amiss(self):
        complete, number = self.calls
        return self.results[-1]["wrong"] or self.results[-1]["unfinished"] or self.share < 0.5 or complete < self.least * number

    def void(self):
        """Why each void try was."""
        for result in self.results[: len(self.results) - self.whole]:
            yield (f"a try is void, {'the base station ended itself' if result['ended'] else 'something was amiss'}: {lateness(result)}; "
                   + "; ".join([result["reason"], *result["wrong"][:3]]))

    @property
    def wrong(self):
        """What was wrong in the last try."""
        return self.results[-1]["wrong"] if self.results else []

    @property
    def calls(self):
        """The calls that were complete, and all, of the last try."""
        counts = self.total("counts")
        return tuple(sum(counts[f"calls at {rate} rate{what}"] for rate in RATES) for what in (" complete", ""))

    @property
    def outcomes(self):
        """How many sessions of the last try ended in each way; one that lost contention was another mobile's."""
        counts = collections.Counter()
        for _, how, count in self.results[-1]["outcomes"] if self.results else ():
            counts[how] += count
        return counts

    @property
    def share(self):
        counts = self.outcomes
        return counts["complete"] / max(1, sum(counts.values()) - counts["contention"])

    def rejected(self):
        """The share of the uplink's blocks that the base station rejected."""
        blocks = self.total("blocks")
        return (blocks["ar"] + blocks["rr"]) / max(1, sum(blocks.values()))

    def saved(self):
        """How many blocks the base station accepted of those that `um` rejects with one word, and how many these are."""
        blocks = self.total("blocks")
        return blocks["ra"], blocks["ra"] + blocks["rr"]


def lateness(result):
    """How late the programs were in a try."""
    return (f"a base station missed up to {result['missed']} frames at once, the cell was up to {result['latest']} late, "
            f"{'with' if result['realtime'] else 'without'} realtime priority, load {os.getloadavg()[0]:.0f}")


def told(name, run):
    """Prints a run in a line or two. Its status: 0, 1 if something is wrong, 77 if each try was void."""
    counts = run.outcomes
    others = ", ".join(f"{count} {how}" for how, count in counts.most_common() if how != "complete")
    print(f"network: {name}: {counts['complete']} sessions complete ({others or 'no other'}), {len(run.wrong)} wrong; "
          f"{run.total('counts')['short messages received']} short messages received; "
          f"the base station rejected {100 * run.rejected():.1f} % of the uplink's blocks")
    if run.failure or not run.results:
        print(f"network: {name}: the network did not start or the run failed: {run.failure}")
        return 1
    print(f"network: {name}: {run.seconds:.0f} s; {lateness(run.results[-1])}")
    for text in run.void():
        print(f"network: {name}: {text}")
    if not run.whole:
        print(f"network: skipped: machine too busy: each of {len(PAUSES)} tries was void: {name}")
        return 77
    for text in run.wrong[:20]:
        print("  wrong: " + text)
    if run.wrong:
        return 1
    if run.results[-1]["unfinished"]:
        print(f"network: {name}: sessions were not over after {run.options['seconds']:.0f} s")
        return 1
    if run.share < 0.5:
        print(f"network: {name}: only {100 * run.share:.0f} % of the sessions are complete; expected at least half")
        return 1
    return 0


def told_calls(name, run):
    """Prints what became of the calls. Its status: 1 if too few are complete."""
    counts = run.total("counts")
    complete, number = run.calls
    print(f"network: {name}: " + ", ".join(calls_of(counts, rate) for rate in RATES) + f"; {counts['handovers begun']} handovers begun, "
          f"{counts['returns to the old channel']} returns, {counts['speech frames of the other']} frames of speech heard")
    return int(complete < run.least * number or number < 5)


def calls_of(counts, rate):
    calls = f"calls at {rate} rate"
    return (f"{counts[calls + ' complete']} of {counts[calls]} {calls} complete "
            f"(T200 expired {counts['T200 expired on FACCH/' + RATES[rate]]} times)")


def calls_table(given):
    """The rows of the table of calls in docs/INTEROP.md. The status is 1 if a run is not whole or something is wrong."""
    rows = [(name, long_run(given, dict(MORE, sessions=10 + given.number, **options))) for name, options in AIRS_OF_CALLS]
    print("| Air | full rate | half rate | T200 expired, full, half | handovers | returns |\n|-|-|-|-|-|-|")
    for name, run in rows:
        counts = run.total("counts")
        complete = (f"{counts[f'calls at {rate} rate complete']} of {counts[f'calls at {rate} rate']}" for rate in RATES)
        expired = ", ".join(str(counts["T200 expired on FACCH/" + letter]) for letter in RATES.values())
        print("|", " | ".join((name, *complete, expired, str(counts["handovers begun"]), str(counts["returns to the old channel"]))), "|")
    print(f"\n{sum(len(run.wrong) for _, run in rows)} wrong")
    return int(any(run.wrong or not run.whole for _, run in rows))


def check(given):
    statuses, is_quick = set(), os.environ.get("QUICK") == "quick"
    for name, options, *least in (QUICK if is_quick else FULL) + (CALLS if given.what == "whole" else QUICK_CALLS):
        if options.get("station") and not given.preload:
            print(f"network: skipped: {name}: no make or no cc here")
            continue
        run = Run(given, options, *least)
        status = told(name, run) or (told_calls(name, run) if least else 0)
        saved, lost = run.saved()
        if status == 0 and options.get("station") and not least:
            print(f"network: {name}: it accepted {saved} of the {lost} blocks that are lost with one word")
            status = int(lost < 20 or saved < 0.75 * lost)
        statuses.add(status)
    return 1 if 1 in statuses else 0 if 0 in statuses else 77


def long_run(given, options):
    """A run for a table; its details are printed on standard error."""
    run = Run(given, dict(options, seconds=60 + 3 * options["sessions"]))
    print(f"{options}: {len(run.wrong)} wrong; {'; '.join(map(lateness, run.results))}; "
          f"{dict(run.total('counts'))}; {dict(run.total('blocks'))}", *run.wrong, *run.void(), sep="\n  ", file=sys.stderr, flush=True)
    return run


def tables(given):
    """The rows of the tables in docs/INTEROP.md. The status is 1 if a run is not whole or something is wrong."""
    sessions = given.number // (len(LONG) * len(TIMES))
    rows = [(name, f"{times[0]}, {times[1]}", dict(options, sessions=sessions, t200=times[0], t200_sapi3=times[1], twins=0.1, among=1))
            for name, options in LONG for times in TIMES]
    rows += [(name, decoder, dict(options, sessions=sessions, station=words)) for name, options in NOISY for words, decoder in DECODERS]
    with concurrent.futures.ThreadPoolExecutor(given.jobs) as jobs:
        runs = list(jobs.map(lambda row: long_run(given, row[2]), rows))
    print("| Air | T200 | sessions | complete | why the others were not | uplink blocks | rejected by `um` alone | by osmo-bts alone |")
    print("|-|-|-|-|-|-|-|-|")
    for (name, what, options), run in zip(rows, runs):
        counts, blocks = run.outcomes, run.total("blocks")
        if (name, what) == (NOISY[0][0], DECODERS[0][1]):
            print("\n| Air | The base station decodes by | sessions | complete | uplink blocks | rejected |\n|-|-|-|-|-|-|")
        others = ", ".join(f"{count} {how}" for how, count in counts.most_common() if how not in ("complete", "contention"))
        print(f"| {name} | {what} | {sum(counts.values()) - counts['contention']} | {100 * run.share:.1f} %", end=" | ")
        print(f"{sum(blocks.values())} | {100 * run.rejected():.2f} % |" if "station" in options else
              f"{others} | {sum(blocks.values())} | {blocks['ra']} | {blocks['ar']} |")
    print(f"\n{sum(sum(run.outcomes.values()) for run in runs)} sessions, {sum(len(run.wrong) for run in runs)} wrong, "
          f"{sum(run.total('counts')['messages that osmo-bts cut'] for run in runs)} messages that osmo-bts cut")
    return int(any(run.wrong or not run.whole for run in runs))


def act(given):
    """The status of what is asked for."""
    if given.what in ("check", "whole"):
        return check(given)
    if given.what in ("long", "calls"):
        return tables(given) if given.what == "long" else calls_table(given)
    options = {name: getattr(given, name) for name in DEFAULTS}
    if given.what == "show":
        options.update(sessions=2, mobiles=1, kinds="message", text="hello from um", linger=2000, show=1)
    if given.what == "call":
        options.update(sessions=5, mobiles=4, kinds="call", busy=2, layout=TALKING, show=1)
    run = Run(given, options)
    status = told("run", run)
    for how, count in sorted((run.total("counts") + run.total("blocks")).items()):
        print(f"{count:7} {how}")
    return status


def main():
    signal.signal(signal.SIGTERM, lambda *_: sys.exit(1))
    usage = "checks/network [whole | run OPTIONS | show | call | long SESSIONS | calls CALLS]"
    parser = argparse.ArgumentParser(prog="checks/network", usage=usage, formatter_class=argparse.RawDescriptionHelpFormatter,
                                     description=__doc__.split("\n")[0])
    parser.add_argument("what", nargs="?", choices=("check", "whole", "run", "show", "call", "long", "calls"), default="check",
                        help="whole: with all runs of calls, before a release; run: one run with options; show: one mobile, message by "
                             "message; call: a call; long, calls: the tables")
    parser.add_argument("number", nargs="?", type=int, help="of long: sessions of the tables (2000); of calls: calls of each row (50)")
    for name in ("own", "work", "sctp", "preload"):
        parser.add_argument("--" + name, help=argparse.SUPPRESS)
    parser.add_argument("--jobs", type=int, default=1, help="runs of the table at a time (1)")
    parser.add_argument("--keep", action="store_true", help="keep the logs")
    for name, default, text in OPTIONS:
        parser.add_argument("--" + name, type=type(default), default=default, help=f"{text} ({default})")
    given = parser.parse_args()
    given.number = given.number or {"long": 2000, "calls": 50}.get(given.what)
    try:
        sys.exit(act(given))
    finally:
        shutil.rmtree(given.work, ignore_errors=True)


main()
