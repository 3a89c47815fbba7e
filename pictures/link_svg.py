#!/usr/bin/env python3
"""Draws a script of `um link` as a message sequence chart, an SVG.

    pictures/link_svg.py [--um PROGRAM] T [sacch] < SCRIPT > CHART.svg

The script is run by `um link`.  An arrow begins where its block was sent and ends where it arrived or was lost; the
numbers of each frame stand on it, the variables V(S) and V(R) of an end beside it where they change, calls in blue
and what an end reports in green.  Standard library only.
"""
import argparse
import html
import subprocess
import sys

LANES = {"rival": 90, "mob": 330, "net": 830}
NAMES = {"rival": "another mobile", "mob": "mobile", "net": "network"}
ROW, HEAD = 21, 66
REPORTS = ("opened", "got", "unit", "acked", "oversize", "closed")


def run(um, words, text):
    done = subprocess.run([um, *words], input=text, capture_output=True, text=True)
    if done.returncode:
        sys.exit(f"{um} {' '.join(words)}: status {done.returncode}: {done.stdout.rstrip().rsplit(chr(10), 1)[-1]}")
    return done.stdout.splitlines()


def answers_of(lines):
    """The lines of each answer, in order: up to `ok`, or the single line of a refusal."""
    held = []
    for line in lines:
        held.append(line)
        if line == "ok" or line.startswith("no "):
            yield held
            held = []


def short(octets):
    return octets if len(octets) <= 16 else f"{octets[:8]}.. ({len(octets) // 2} octets)"


class Frame:
    """A frame as `um show` prints it; on SACCH two layer 1 octets precede it."""

    def __init__(self, um, block, sacch):
        shown = run(um, ["show"], f"octets {block[4:] + '2b2b' if sacch else block}\n")[0].split(" ")
        self.block = block
        self.kind = shown[5] if shown[0] == "frame" else None
        said = dict(zip(shown[6::2], shown[7::2]))
        self.sapi = shown[2] if self.kind else ""
        self.ns, self.nr = (int(said[name]) if name in said else None for name in ("ns", "nr"))
        words = [self.kind.upper() if self.kind else "unread"]
        words += [f"{name}={said[key]}" for key, name in (("ns", "N(S)"), ("nr", "N(R)")) if key in said]
        words += [name for key, name in (("m", "M"), ("p", "P"), ("f", "F"), ("pf", "P/F")) if said.get(key) == "1"]
        if said.get("info", "-") != "-":
            words.append(short(said["info"]))
        self.label = " ".join(words) + (" (SAPI 3)" if self.sapi == "3" else "")


class Chart:
    def __init__(self):
        self.out, self.y, self.lanes = [], HEAD + 16, {"mob", "net"}

    def text(self, x, y, words, anchor="start", size=12, colour="#1a202c"):
        self.out.append(
            f'<text x="{x:g}" y="{y:g}" font-size="{size}" text-anchor="{anchor}" fill="{colour}"'
            f' stroke="white" stroke-width="3" paint-order="stroke">{html.escape(words)}</text>'
        )

    def beside(self, side, words, colour, size=12):
        """A text beside the arrows, at the lane of an end."""
        self.lanes.add(side)
        left = side in ("mob", "rival")
        self.text(LANES[side] + (-10 if left else 10), self.y + 4, words, "end" if left else "start", size, colour)
        self.y += ROW - 4

    def arrow(self, sent, y, frame, fate, wrong):
        """The arrow of a block, from its sending to its arrival or loss, or to the end of the chart if it is in transit."""
        start, end = LANES[sent], LANES["net" if sent != "net" else "mob"]
        colour = {"arrives": "#1a202c", "lost": "#c53030", "waits": "#a0aec0"}[fate]
        part = 1 if fate == "arrives" else 0.55
        x, fall = start + (end - start) * part, y + (self.y - y) * part
        dashed = "" if fate == "arrives" else ' stroke-dasharray="5 4"'
        tip = ' marker-end="url(#tip)"' if fate == "arrives" else ""
        self.out.append(
            f'<path d="M{start} {y:g}L{x:g} {fall:g}" stroke="{colour}" stroke-width="1.4" fill="none"{dashed}{tip}/>'
            f'<path d="M{start} {y:g}L{x:g} {fall:g}" stroke="transparent" stroke-width="9" fill="none">'
            f"<title>{frame.block}</title></path>"
        )
        if fate == "lost":
            self.out.append(f'<path d="M{x - 6:g} {fall - 6:g}l12 12m0 -12l-12 12" stroke="{colour}" stroke-width="2"/>')
        label = frame.label + (f"  [{wrong} bits inverted]" if wrong else "")
        right = end > start
        self.text(start + (10 if right else -10), y - 5, label, "start" if right else "end", 11, colour)

    def svg(self):
        high = self.y + 14
        head = []
        for side in (side for side in LANES if side in self.lanes):
            x = LANES[side]
            head.append(f'<rect x="{x - 64}" y="14" width="128" height="28" rx="4" fill="#edf2f7" stroke="#4a5568"/>')
            head.append(f'<text x="{x}" y="33" font-size="13" text-anchor="middle" fill="#1a202c">{NAMES[side]}</text>')
            head.append(f'<path d="M{x} 42V{high - 8}" stroke="#718096" stroke-width="1.2"/>')
        left = 0 if "rival" in self.lanes else 80
        return "\n".join([
            f'<svg xmlns="http://www.w3.org/2000/svg" width="{1120 - left}" height="{high}" viewBox="{left} 0 {1120 - left} {high}"'
            ' font-family="DejaVu Sans Mono, monospace">',
            '<defs><marker id="tip" viewBox="0 0 10 10" refX="10" refY="5" markerWidth="9" markerHeight="9" orient="auto">'
            '<path d="M0 0L10 5L0 10z" fill="#1a202c"/></marker></defs>',
            f'<rect x="{left}" width="{1120 - left}" height="{high}" fill="white"/>', *head, *self.out, "</svg>",
        ])


class Session:
    def __init__(self, um, sacch):
        self.um, self.sacch, self.chart = um, sacch, Chart()
        self.ways = {"up": [], "down": []}
        self.numbers, self.open = {}, set()
        self.arrived = None  # the height of the last arrival, as long as nothing is below it

    def show_numbers(self, side, sapi, changed):
        numbers = self.numbers.setdefault((side, sapi), [0, 0])
        before = list(numbers)
        changed(numbers)
        if numbers != before:
            self.chart.beside(side, f"V(S)={numbers[0]} V(R)={numbers[1]}", "#805ad5", 11)

    def arrive(self, way, words):
        """The first block of one direction is lost, or arrives at this height."""
        side, y, frame = self.ways[way].pop(0)
        lost = words[1] == "lose"
        self.chart.y += ROW // 2
        height = self.chart.y
        self.chart.arrow(side, y, frame, "lost" if lost else "arrives", len(words) - 2 if words[1] == "flip" else 0)
        if not lost and frame.ns is not None:
            taker = "net" if way == "up" else "mob"

            def accepted(numbers):
                if frame.ns == numbers[1] and (taker, frame.sapi) in self.open:
                    numbers[1] = (numbers[1] + 1) % 8

            self.show_numbers(taker, frame.sapi, accepted)
        self.arrived = height + 9 if self.chart.y == height else None
        self.chart.y += 9

    def send(self, side, block):
        frame = Frame(self.um, block, self.sacch)
        if frame.ns is not None:
            def sent(numbers):
                numbers[0] = (frame.ns + 1) % 8

            self.show_numbers(side, frame.sapi, sent)
        if self.chart.y == self.arrived:  # the label clears the tip of the arrow above
            self.chart.y += 11
        self.chart.lanes.add(side)
        self.ways["down" if side == "net" else "up"].append((side, self.chart.y, frame))
        self.chart.y += ROW - 6

    def step(self, line, answer):
        words = line.split(" ")
        if answer[0].startswith("no "):
            side = words[0].rstrip("3")
            if side in LANES:
                self.chart.beside(side, f"{' '.join(words[1:2])}: {answer[0]}", "#c53030")
            return
        if words[0] in self.ways:
            self.arrive(words[0], words)
        elif words[0] != "rival" and words[1] != "idle":
            asked = words[1] + (f" {short(words[2])}" if len(words) > 2 else "")
            self.chart.beside(words[0].rstrip("3"), asked + (" (SAPI 3)" if words[0].endswith("3") else ""), "#2c5282")
        for said in answer:
            side, _, rest = said.partition(" ")
            if rest.split(" ")[0] in REPORTS:
                kind, _, octets = rest.partition(" ")
                link = side.rstrip("3"), "3" if side.endswith("3") else "0"
                if kind == "opened":
                    self.open.add(link)
                elif kind == "closed":
                    self.open.discard(link)
                self.chart.beside(side.rstrip("3"), f"{kind} {short(octets)}".rstrip(" -"), "#276749")
            elif rest.startswith("drops"):
                self.chart.beside(side, "parity bad: dropped", "#c53030")
            elif rest.startswith("sends"):
                self.send(side, rest.split(" ")[1])

    def end(self):
        self.chart.y += ROW
        for way in self.ways.values():
            for side, y, frame in way:
                self.chart.arrow(side, y, frame, "waits", 0)
        return self.chart.svg()


def main():
    asked = argparse.ArgumentParser(description="Draws a session of um link as a message sequence chart.")
    asked.add_argument("--um", default="./um", help="the program (./um)")
    asked.add_argument("tsc")
    asked.add_argument("channel", nargs="?", choices=("sacch",))
    said = asked.parse_args()
    lines = [line for line in sys.stdin.read().splitlines() if line and not line.startswith("#")]
    words = ["link", said.tsc] + ([said.channel] if said.channel else [])
    session = Session(said.um, bool(said.channel))
    for line, answer in zip(lines, answers_of(run(said.um, words, "\n".join(lines) + "\n"))):
        session.step(line, answer)
    print(session.end())


if __name__ == "__main__":
    main()
