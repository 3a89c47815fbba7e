"""The commands of the program written over the Python package, beside the program's answers.

    PYTHONPATH=bindings/python python3 bindings/tests/program.py CASES

CASES is what cases.py writes. Arguments are given in forms drawn at random: bytes, lists, memory, numpy arrays if numpy is there."""
import array
import json
import random
import sys

import um

try:
    import numpy
except ImportError:
    numpy = None

DRAW = random.Random(1)


def octets_of(digits):
    """The octets of a word, in one of the forms that the package takes."""
    data = bytes.fromhex("" if digits == "-" else digits)
    forms = [bytes, bytearray, list, tuple, memoryview, lambda octets: array.array("B", octets)]
    forms += [lambda octets: numpy.frombuffer(octets, numpy.uint8)] if numpy else []
    return DRAW.choice(forms)(data)


def soft_of(rows):
    """Soft bits of one or four bursts, in one of the forms that the package takes."""
    flat = array.array("b", (value for row in rows for value in row))
    forms = [lambda: flat, lambda: flat.tobytes(), lambda: list(flat), lambda: memoryview(flat)]
    if len(rows) == 4:
        forms += [lambda: rows, lambda: [array.array("b", row) for row in rows]]
    if numpy:
        forms += [lambda: numpy.array(rows, numpy.int8)[0 if len(rows) == 1 else slice(None)], lambda: numpy.array(list(flat), numpy.int8)]
    return DRAW.choice(forms)()


def bits_of(digits):
    return bytes(map(int, digits))


def digits_of(bits):
    return "".join(map(str, bits))


def packed(bits):
    return bytes(sum(bits[8 * at + i] << i for i in range(8)) for at in range(len(bits) // 8)).hex()


def hexed(octets):
    return bytes(octets).hex() or "-"


def code(lines):
    for line in lines:
        kind, first, *rest = line.split()
        if kind == "block":
            yield from ("n " + digits_of(burst) for burst in um.send_block(octets_of(rest[0]), int(first)))
        elif kind == "rach":
            yield f"a {rest[0]} {digits_of(um.send_access(bits_of(first), bits_of(rest[0])))}"
        else:
            yield "s " + digits_of(um.send_sync(bits_of(first)))


def soft_line(words):
    if words[0] == "lost":
        return [0] * 148
    if words[0].islower():
        return [-127 if bit == "1" else 127 for bit in words[-1]]
    return [octet - 256 if octet > 127 else octet for octet in bytes.fromhex(words[-1])]


def frame_line(octets):
    try:
        frame = um.read_frame(octets_of(octets.hex()))
    except um.NoFrame as error:
        return "unread " + error.reason
    head = f"frame sapi {frame.sapi} cr {frame.cr} {frame.kind}"
    if frame.kind == "i":
        return f"{head} ns {frame.ns} nr {frame.nr} p {frame.pf} m {frame.more} info {hexed(frame.info)}"
    if frame.kind in ("rr", "rnr", "rej"):
        return f"{head} nr {frame.nr} pf {frame.pf}"
    name = "f" if frame.kind in ("dm", "ua") else "p"
    return f"{head} {name} {frame.pf}" + (f" info {hexed(frame.info)}" if frame.kind in ("sabm", "ui", "ua") else "")


def block_lines(rows, margin):
    if margin:
        best, metric = um.margin_block(soft_of(rows)), um.receive_block(soft_of(rows)).metric
        words = (packed(part) for word in (best.word, best.next) for part in (word[:184], word[184:224]))
        yield "block margin {} metric {} data {} check {} next {} {}".format(best.margin, metric, *words)
        return
    report = um.receive_block(soft_of(rows))
    among, rank = um.receive_block_among(soft_of(rows), DRAW.randrange(1, 65))
    if report.accepted and (among, rank) != (report, 1):
        yield "list decoding reports another block"
    held = "ok" if report.accepted else "bad"
    yield (f"block tsc {report.tsc} train {report.wrong_training} metric {report.metric} parity {held} data {packed(report.word[:184])} "
           f"check {packed(report.word[184:224])}")
    if report.accepted:
        yield frame_line(report.accepted)


def burst_line(words):
    rows = [soft_line(words)]
    access = words[0] in "aA"
    report = um.receive_access(soft_of(rows), bits_of(words[1])) if access else um.receive_sync(soft_of(rows))
    data, check = (8, 14) if access else (25, 35)
    parity, word = "bad" if report.accepted is None else "ok", digits_of(report.word)
    return (f"{'access ' + words[1] if access else 'sync'} train {report.wrong_training} metric {report.metric} parity {parity} "
            f"data {word[:data]} check {word[data:check]}")


def replay(lines, margin=False):
    group = []
    for line in lines:
        words = line.split()
        if words[0] not in ("n", "N", "lost"):
            yield burst_line(words)
            continue
        group.append(soft_line(words))
        if len(group) == 4:
            yield from block_lines(group, margin)
            group = []


def repair(lines):
    for line in lines:
        _, data, check = line.split()
        done = um.repair(bytes(octet >> i & 1 for octet in bytes.fromhex(data + check) for i in range(8)))
        if done is None or done.span == 0:
            yield "holds" if done else "none"
        else:
            yield f"repaired first {done.first} span {done.span} data {packed(done.word[:184])} check {packed(done.word[184:])}"


def show(lines):
    for line in lines:
        words = line.split()
        if words[0] == "octets":
            yield frame_line(bytes.fromhex(words[1]))
            continue
        fields = dict(zip(words[6::2], words[7::2]))
        number = lambda *names: next((int(fields[name]) for name in names if name in fields), 0)
        frame = um.Frame(words[5], int(words[2]), int(words[4]), number("pf", "p", "f"), number("ns"), number("nr"), number("m"),
                         octets_of(fields.get("info", "-")))
        yield "octets " + um.write_frame(frame).hex()


class World:
    """Both sides, and the blocks in transit from each."""

    def __init__(self, tsc, channel):
        self.tsc, self.channel = tsc, channel
        self.sides = {"mob": um.Side("mobile", channel), "net": um.Side("network", channel)}
        self.air = {"mob": [], "net": []}

    def told(self, who, sapi, effects):
        for kind, value in effects.notices:
            said = [] if value is None else [hexed(value) if isinstance(value, bytes) else str(value)]
            yield " ".join((who + ("3" if sapi else ""), kind, *said))
        for frame in effects.frames:
            self.air[who].append(frame)
            yield f"{who} sends {frame.hex()}"

    def call(self, name, what, octets=None):
        who, sapi = name[:3], 3 if name.endswith("3") else 0
        if DRAW.random() < 0.05:
            self.sides[who] = um.Side.from_bytes(octets_of(self.sides[who].to_bytes().hex()))
        side = self.sides[who]
        calls = {
            "open": lambda: side.open_bare() if sapi else side.open(octets_of(octets)), "send": lambda: side.send(sapi, octets_of(octets)),
            "unit": lambda: side.unit(sapi, octets_of(octets)), "close": lambda: side.close(sapi), "tick": lambda: side.timer(sapi),
            "idle": side.idle,
        }
        runs = side.timer_runs(sapi)
        try:
            effects = calls[what]()
        except um.Refused as error:
            return [f"no {error.reason}"] if what != "tick" or not runs else ["timer_runs says yes"]
        return [*self.told(who, sapi, effects), "ok"] if what != "tick" or runs else ["timer_runs says no"]

    def arrives(self, who, turned):
        bursts = [bytearray(burst) for burst in um.send_block(self.air["net" if who == "mob" else "mob"].pop(0), self.tsc)]
        for at in turned:
            bursts[at // 148][at % 148] ^= 1
        report = um.receive_block(um.soft_from_bits(bursts))
        quality = f"tsc {report.tsc} train {report.wrong_training} metric {report.metric}"
        if report.accepted is None:
            return [f"{who} drops {quality} data {packed(report.word[:184])} check {packed(report.word[184:224])}", "ok"]
        lines = [f"{who} takes {report.accepted.hex()} {quality}"]
        try:
            lines += self.told(who, *self.sides[who].take(report.accepted))
        except um.Refused as error:
            lines += [] if error.reason == "noframe" else [error.reason]
        return [*lines, "ok"]

    def rival(self, digits):
        octets = b"" if digits == "-" else bytes.fromhex(digits)
        if not octets or len(octets) > (18 if self.channel else 20):
            return ["no toolong" if octets else "no empty"]
        self.air["mob"].append(um.write_frame(um.Frame("sabm", pf=1, info=octets), self.channel))
        return [f"rival sends {self.air['mob'][-1].hex()}", "ok"]

    def line(self, words):
        sender, receiver = ("mob", "net") if words[0] in ("up", "rival") else ("net", "mob")
        if words[0] in ("up", "down"):
            if not self.air[sender]:
                return ["no nothing"]
            if words[1] == "lose":
                self.air[sender].pop(0)
                return ["ok"]
        writer = receiver if words[0] in ("up", "down") else sender if words[0] == "rival" else words[0][:3]
        if len(self.air[writer]) > 62:
            return ["no airfull"]
        if words[0] in ("up", "down"):
            return self.arrives(receiver, map(int, words[2:]))
        return self.rival(words[1]) if words[0] == "rival" else self.call(*words)


def link(words, lines):
    world = World(int(words[1]), um.SACCH if "sacch" in words else um.SDCCH)
    for line in lines:
        yield from world.line(line.split())


def answers(words, lines):
    if words[0] == "link":
        return link(words, lines)
    commands = {"code": code, "replay": replay, "repair": repair, "show": show, "margin": lambda given: replay(given, True)}
    return commands[words[0]](lines)


def main():
    count = 0
    for text in open(sys.argv[1], encoding="ascii"):
        case = json.loads(text)
        given = list(answers(case["words"], case["lines"]))
        count += len(given)
        for at, (got, wanted) in enumerate(zip(given, case["answers"])):
            if got != wanted:
                sys.exit(f"program.py: {' '.join(case['words'])}: answer {at + 1} is\n  {got}\nand the program's is\n  {wanted}")
        if len(given) != len(case["answers"]):
            sys.exit(f"program.py: {' '.join(case['words'])}: {len(given)} answers; the program has {len(case['answers'])}")
    print(f"languages: the package gives the program's {count} answers to random lines")


if __name__ == "__main__":
    main()
