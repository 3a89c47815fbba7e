#!/usr/bin/env python3
"""Prints tables of the output of measure.sh:  summary.py [MEASURED]"""
import collections
import os
import re
import sys

HERE = os.path.dirname(os.path.abspath(__file__))
ORDER = ("uu", "uo", "ou", "oo")
PAIRS = {"uu": "um, um", "uo": "um, libosmogsm", "ou": "libosmogsm, um", "oo": "libosmogsm, libosmogsm", "pp": "um, um, T200 from the call"}
LOSSES = (0, 10, 50, 100, 200, 300)
ROW = re.compile(r"(?:([\d.]+) )?(\w\w) (\w+) (\w+) (loss|sigma) (\d+): (.*)")
CAUSE = re.compile(r"(\w\w) (\w+) (\w+) cause (\d+) (.*) \(seed (\d+)\)")


def read(path):
    """The counts by pair and loss, and by T200, scene and pair; how often each cause was seen by pair, and an example of it."""
    by_loss, by_t200, causes, examples = {}, {}, {}, {}
    for line in open(path, encoding="utf-8"):
        found, cause = ROW.match(line), CAUSE.match(line)
        if found:
            t200, pair, _, scene, kind, number, rest = found.groups()
            words = rest.split()
            counts = collections.Counter(dict(zip(words[::2], map(int, words[1::2]))))
            place, key = (by_t200, (t200, scene, pair)) if t200 else (by_loss, (pair, kind, int(number)))
            place[key] = place.get(key, collections.Counter()) + counts
        elif cause:
            pair, on, scene, count, text, seed = cause.groups()
            text = text.split(": ")[1]
            causes.setdefault(text, collections.Counter())[pair] += int(count)
            examples.setdefault((text, pair), f"{pair} {on} {scene} {seed}")
    return by_loss, by_t200, causes, examples


def well(counts):
    return counts["whole"] + counts["early"]


def main():
    by_loss, by_t200, causes, examples = read(sys.argv[1] if len(sys.argv) > 1 else os.path.join(HERE, "measured.txt"))
    print("| Mobile, network | Sessions | Blocks | " + " | ".join(f"{loss / 10:g} %" for loss in LOSSES) + " | bursts |")
    print("|---" * (4 + len(LOSSES)) + "|")
    for pair in ORDER:
        mine = {key: counts for key, counts in by_loss.items() if key[0] == pair}
        total = sum(mine.values(), collections.Counter())
        bursts = sum((counts for key, counts in mine.items() if key[1] == "sigma"), collections.Counter())
        cells = [f"{100 * well(mine[pair, 'loss', loss]) / mine[pair, 'loss', loss]['sessions']:.1f}" for loss in LOSSES]
        cells.append(f"{100 * well(bursts) / bursts['sessions']:.1f}")
        print(f"| {PAIRS[pair]} | {total['sessions']:,} | {total['blocks']:,} | {' | '.join(cells)} |")
    print("\n| T200 | Links | " + " | ".join(PAIRS[pair] for pair in ("pp", "uu", "uo", "ou", "oo")) + " |")
    print("|---" * 7 + "|")
    for scene, links in (("0", "SAPI 0"), ("all", "SAPI 0 and 3")):
        for t200 in sorted({key[0] for key in by_t200}, key=float):
            cells = []
            for pair in ("pp", "uu", "uo", "ou", "oo"):
                counts = by_t200[t200, scene, pair]
                cells.append(f"{counts['blocks']:,}, {counts['sessions'] - well(counts)}")
            print(f"| {t200} | {links} | {' | '.join(cells)} |")
    print("\n| Cause | " + " | ".join(PAIRS[pair] for pair in ORDER) + " | Example |")
    print("|---" * 6 + "|")
    for text, found in sorted(causes.items(), key=lambda item: -sum(item[1].values())):
        example = next(examples[text, pair] for pair in ("uo", "ou", "oo", "uu") if (text, pair) in examples)
        print(f"| {text} | {' | '.join(str(found[pair]) for pair in ORDER)} | `{example}` |")


if __name__ == "__main__":
    main()
