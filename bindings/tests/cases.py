#!/usr/bin/env python3
"""Writes random inputs of the program's commands with the program's answers, for the packages to give the same: one JSON object per line,
with the words of the command, the lines in, and the lines out.

    bindings/tests/cases.py PROGRAM COUNT SEED

COUNT is the number of inputs of each command. Standard library only.
"""
import json
import random
import subprocess
import sys

KINDS = ("i", "rr", "rnr", "rej", "sabm", "dm", "ui", "disc", "ua")


class Inputs:
    """Draws lines of input."""

    def __init__(self, program, seed):
        self.program, self.draw = program, random.Random(seed)

    def answer(self, words, lines):
        text = "".join(line + "\n" for line in lines)
        done = subprocess.run([self.program, *words], input=text, stdout=subprocess.PIPE, universal_newlines=True, check=False)
        if done.returncode:
            raise SystemExit(f"cases.py: {words} ended with {done.returncode}")
        return done.stdout.splitlines()

    def octets(self, count):
        return bytes(self.draw.randrange(256) for _ in range(count)).hex()

    def message(self, most):
        return self.octets(self.draw.choice((0, 1, self.draw.randrange(most + 2)))) or "-"

    def bits(self, count):
        return "".join(self.draw.choice("01") for _ in range(count))

    def code(self):
        return [
            self.draw.choice((
                f"block {self.draw.randrange(8)} {self.octets(23)}", f"rach {self.bits(8)} {self.bits(6)}", f"sch {self.bits(25)}"))
            for _ in range(self.draw.randrange(1, 20))
        ]

    def received(self, line):
        """A burst as it might arrive: with wrong bits, as soft bits with noise, or not at all."""
        *head, digits = line.split()
        kind, noise = self.draw.randrange(5), self.draw.choice((0, 0, 40, 90, 127))
        if kind == 0:
            return line
        if kind == 1 and head[0] == "n":
            return "lost"
        if kind == 2:
            turned = {self.draw.randrange(len(digits)) for _ in range(self.draw.randrange(30))}
            return " ".join((*head, "".join("10"[int(bit)] if at in turned else bit for at, bit in enumerate(digits))))
        values = ((-1 if bit == "1" else 1) * 64 + round(self.draw.gauss(0, noise)) for bit in digits)
        soft = bytes(max(-127, min(127, value)) & 255 for value in values)
        return " ".join((head[0].upper(), *head[1:], soft.hex()))

    def bursts(self, blocks_only=False):
        sent = [line for line in self.code() if line.startswith("block") or not blocks_only]
        return [self.received(line) for line in self.answer(["code"], sent)] if sent else ["lost"] * 4

    def words(self):
        lines = []
        for line in self.answer(["replay"], self.bursts(True)):
            if line.startswith("block"):
                words = line.split()
                whole = int(words[10] + words[12], 16) ^ self.draw.choice((0, self.draw.randrange(1 << 12))) << self.draw.randrange(212)
                lines.append(f"word {whole >> 40:046x} {whole & (1 << 40) - 1:010x}")
        return lines

    def frame(self):
        kind, draw = self.draw.choice(KINDS), self.draw.randrange
        head = f"frame sapi {draw(8)} cr {draw(2)} {kind}"
        info = self.octets(draw(1, 21) if kind == "i" else draw(21)) or "-"
        if kind == "i":
            return f"{head} ns {draw(8)} nr {draw(8)} p {draw(2)} m {draw(2)} info {info}"
        if kind in ("rr", "rnr", "rej"):
            return f"{head} nr {draw(8)} pf {draw(2)}"
        name = "f" if kind in ("dm", "ua") else "p"
        return f"{head} {name} {draw(2)}" + (f" info {info}" if kind in ("sabm", "ui", "ua") else "")

    def shown(self):
        near = lambda: bytes((self.draw.randrange(32), self.draw.randrange(256), self.draw.randrange(84) | 1)).hex() + self.octets(20)
        return [self.draw.choice((self.frame(), f"octets {self.octets(23)}", f"octets {near()}")) for _ in range(30)]

    def script(self, most=20):
        """Lines of `um link`: mostly deliveries, so that links open and messages arrive."""
        lines = ["mob open 0102", "up deliver", "down deliver", "mob3 open", "up deliver", "down deliver"]
        for _ in range(self.draw.randrange(80)):
            end = self.draw.choice(("mob", "net", "mob3", "net3"))
            way = self.draw.choice(("up", "down"))
            flips = " ".join(map(str, self.draw.sample(range(592), self.draw.randrange(1, 40))))
            lines.append(self.draw.choice((
                *[f"{way} deliver"] * 8, f"{way} lose", f"{way} flip {flips}", f"{end} send {self.message(251)}",
                f"{end} send {self.octets(30)}", f"{end} unit {self.message(most)}", f"{end} tick", f"{end[:3]} idle",
                f"rival {self.message(most)}", f"mob open {self.message(most)}", "net3 open",
                self.draw.choice((f"{end} close", "up deliver")),
            )))
        return lines


def main():
    program, count, seed = sys.argv[1], int(sys.argv[2]), int(sys.argv[3])
    inputs = Inputs(program, seed)
    for _ in range(count):
        tsc = str(inputs.draw.randrange(8))
        for words, lines in (
            (["code"], inputs.code()), (["replay"], inputs.bursts()), (["margin"], inputs.bursts(True)), (["repair"], inputs.words()),
            (["show"], inputs.shown()), (["link", tsc], inputs.script()), (["link", tsc, "sacch"], inputs.script(18)),
        ):
            if lines:
                print(json.dumps({"words": words, "lines": lines, "answers": inputs.answer(words, lines)}))


if __name__ == "__main__":
    main()
