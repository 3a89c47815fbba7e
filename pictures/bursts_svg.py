#!/usr/bin/env python3
"""Draws a recording of bursts as an SVG.

    pictures/bursts_svg.py [--um PROGRAM] [--titles] < RECORDING > PICTURE.svg

Reads the lines that `um replay` reads, has `um replay` answer them, and has `um code` code each reported
block or burst again.  Where the bits that were read differ from these, they are marked.  With --titles each bit
says where it stands and what it is when it is pointed at.  Standard library only.
"""
import argparse
import html
import subprocess
import sys

CELL, HIGH, LEFT = 8, 18, 74
# part: (colour of a 1, name)
PARTS = {
    "tail": ("#7a7a7a", "tail"),
    "data": ("#2b6cb0", "coded bits"),
    "flag": ("#805ad5", "stealing flag"),
    "training": ("#2f855a", "training sequence"),
}
LAYOUTS = {
    "n": [("tail", 3), ("data", 57), ("flag", 1), ("training", 26), ("flag", 1), ("data", 57), ("tail", 3)],
    "a": [("tail", 8), ("training", 41), ("data", 36), ("tail", 3)],
    "s": [("tail", 3), ("data", 39), ("training", 64), ("data", 39), ("tail", 3)],
}


# the coded bit at a position of a normal burst of a block: the interleaver of GSM 05.03 section 4.1.4
CODED_AT = {}
for _k in range(456):
    _place = 2 * (49 * _k % 57) + _k % 8 // 4
    CODED_AT[_k % 4, _place + 3 if _place < 57 else _place + 31] = _k


def run(um, command, lines):
    done = subprocess.run([um, command], input="\n".join(lines) + "\n", capture_output=True, text=True)
    if done.returncode:
        last = done.stdout.rstrip().rsplit("\n", 1)[-1]
        sys.exit(f"{um} {command}: status {done.returncode}: {last}")
    return done.stdout.splitlines()


def soft_of(line):
    """Kind and soft bits of a burst line."""
    words = line.split(" ")
    kind = words[0]
    if kind == "lost":
        return "n", [0] * 148
    if kind in "nas":
        return kind, [127 if digit == "0" else -127 for digit in words[-1]]
    octets = bytes.fromhex(words[-1])
    return kind.lower(), [octet - 256 if octet > 127 else octet for octet in octets]


def groups_of(lines):
    """The input lines of each answer, four normal bursts or one other burst, in order."""
    held = []
    for line in lines:
        if not line or line.startswith("#"):
            continue
        held.append(line)
        if line[0] in "aAsS" or len(held) == 4:
            yield held
            held = []


def coded_again(um, report):
    """The bursts that encode the reported word."""
    words = report.split(" ")
    said = dict(zip(words[1::2], words[2::2]))
    if words[0] == "block":
        return [it.split(" ")[-1] for it in run(um, "code", [f"block {said['tsc']} {said['data']}"])]
    if words[0] == "sync":
        return [it.split(" ")[-1] for it in run(um, "code", [f"sch {said['data']}"])]
    data = report.split(" data ")[1].split(" ")[0]
    return [it.split(" ")[-1] for it in run(um, "code", [f"rach {data} {words[1]}"])]


def parts_of(kind):
    for part, count in LAYOUTS[kind]:
        for _ in range(count):
            yield part


def tone(colour, bit, sure):
    """A 1 in full colour, a 0 in a light tone; the less certain, the paler."""
    weight = (0.25 + 0.75 * sure) * (1.0 if bit else 0.28)
    red, green, blue = (int(colour[i : i + 2], 16) for i in (1, 3, 5))
    mixed = (round(255 + (channel - 255) * weight) for channel in (red, green, blue))
    return "#%02x%02x%02x" % tuple(mixed)


def sums(k):
    """The information bits whose sum is this coded bit: the code of rate 1/2 of GSM 05.03 section 4.1.3."""
    taps = (0, 1, 3, 4) if k % 2 else (0, 3, 4)
    return " + ".join(f"u({k // 2 - at})" for at in taps if k // 2 >= at)


def title_of(number, kind, at, value, bit):
    """The description of a bit of a burst."""
    said = f"position {at}: soft value {value}, {bit} in the word reported"
    k = CODED_AT.get((number, at)) if kind == "n" and number is not None else None
    return f"{f'burst {number}, ' if number is not None else ''}{said}" + (f"; c({k}) = {sums(k)}" if k is not None else "")


class Picture:
    def __init__(self, titles=False):
        self.out, self.y, self.wide, self.titles = [], 12, 0, titles

    def text(self, x, y, words, size=12, colour="#1a202c", weight="normal"):
        self.out.append(
            f'<text x="{x}" y="{y}" font-size="{size}" fill="{colour}" font-weight="{weight}">{html.escape(words)}</text>'
        )
        self.wide = max(self.wide, x + len(words) * size * 0.61)

    def cell(self, x, y, wide, high, fill, extra="", title=None):
        end = f"><title>{html.escape(title)}</title></rect>" if title and self.titles else "/>"
        self.out.append(f'<rect x="{x:g}" y="{y:g}" width="{wide:g}" height="{high:g}" fill="{fill}"{extra}{end}')

    def burst(self, name, kind, soft, sent, number=None):
        wrong = unknown = 0
        self.text(6, self.y + 13, name, 11, "#4a5568")
        for i, (value, part, bit) in enumerate(zip(soft, parts_of(kind), sent)):
            x = LEFT + i * CELL
            fill = tone(PARTS[part][0], value < 0, abs(value) / 127) if value else "url(#lost)"
            title = title_of(number, kind, i, value, bit)
            self.cell(x, self.y, CELL - 0.6, HIGH, fill, title=title)
            unknown += value == 0
            if value * (1 - 2 * int(bit)) < 0:
                wrong += 1
                self.cell(x, self.y, CELL - 0.6, HIGH, "none", ' stroke="#e53e3e" stroke-width="1.6" pointer-events="none"')
                self.out.append(f'<path d="M{x + 3.7:g} {self.y + HIGH + 1}l-3.4 6h6.8z" fill="#e53e3e"/>')
        self.wide = max(self.wide, LEFT + len(soft) * CELL)
        end = LEFT + len(soft) * CELL + 8
        self.text(end, self.y + 13, f"{wrong} wrong" if wrong else "lost" if unknown == len(soft) else "", 11, "#c53030")
        self.y += HIGH + 11

    def coded_list(self, softs, sents):
        """The 456 coded bits in the order of the encoder."""
        self.text(6, self.y + 11, "coded bits", 11, "#4a5568")
        wide = 148 * CELL / 228
        for (burst, at), k in sorted(CODED_AT.items(), key=lambda placed: placed[1]):
            value, bit = softs[burst][at], int(sents[burst][at])
            x, y = LEFT + k % 228 * wide, self.y + k // 228 * 18
            if value == 0:
                self.cell(x, y, wide - 0.4, 14, "url(#lost)")
            else:
                wrong = value * (1 - 2 * bit) < 0
                fill = "#e53e3e" if wrong else tone(PARTS["data"][0], value < 0, abs(value) / 127)
                self.cell(x, y, wide - 0.4, 14, fill)
        self.y += 46

    def legend(self):
        x = LEFT
        for colour, name in PARTS.values():
            self.cell(x, self.y, 9, 11, tone(colour, 0, 1))
            self.cell(x + 10, self.y, 9, 11, tone(colour, 1, 1))
            self.text(x + 24, self.y + 10, f"{name} 0, 1", 11)
            x += 44 + 7 * len(name) + 22
        self.cell(x, self.y, 9, 11, "url(#lost)")
        self.text(x + 14, self.y + 10, "unknown", 11)
        self.cell(x + 112, self.y, 9, 11, "none", ' stroke="#e53e3e" stroke-width="1.6"')
        self.text(x + 126, self.y + 10, "differs from the decoded word", 11)
        self.y += 30

    def svg(self):
        wide, high = round(self.wide + 12), self.y + 4
        return "\n".join(
            [
                f'<svg xmlns="http://www.w3.org/2000/svg" width="{wide}" height="{high}" viewBox="0 0 {wide} {high}"'
                ' font-family="DejaVu Sans Mono, monospace">',
                '<defs><pattern id="lost" width="4" height="4" patternUnits="userSpaceOnUse" patternTransform="rotate(45)">'
                '<rect width="4" height="4" fill="#edf2f7"/><rect width="1.2" height="4" fill="#a0aec0"/></pattern></defs>',
                f'<rect width="{wide}" height="{high}" fill="white"/>',
                *self.out,
                "</svg>",
            ]
        )


def main():
    asked = argparse.ArgumentParser(description="Draws a recording of bursts as an SVG.")
    asked.add_argument("--um", default="./um", help="the program (./um)")
    asked.add_argument("--titles", action="store_true", help="describe each bit in a tooltip")
    said_words = asked.parse_args()
    um = said_words.um
    lines = sys.stdin.read().splitlines()
    answers = iter(run(um, "replay", lines))
    picture, said = Picture(said_words.titles), None
    picture.legend()
    for group in groups_of(lines):
        report = said or next(answers)
        said = next(answers, None)
        reports = [report]
        if said and said.split(" ")[0] in ("frame", "unread"):
            reports.append(said)
            said = next(answers, None)
        for at, words in enumerate(reports):
            picture.text(6, picture.y + 12, words, 12, weight="bold" if at == 0 else "normal")
            picture.y += 18
        picture.y += 4
        sents = coded_again(um, report)
        softs = []
        for number, (line, sent) in enumerate(zip(group, sents)):
            kind, soft = soft_of(line)
            softs.append(soft)
            name = f"burst {number}" if len(group) == 4 else {"a": "access", "s": "sync"}[kind]
            picture.burst(name, kind, soft, sent, number if len(group) == 4 else None)
        if len(group) == 4:
            picture.coded_list(softs, sents)
        picture.y += 14
    print(picture.svg())


if __name__ == "__main__":
    main()
