#!/usr/bin/env python3
"""Draws all pictures of docs/pictures, from the program's output and the measurements.

    pictures/tour.py [--um PROGRAM]

Standard library only.
"""
import argparse
import os
import subprocess
import sys

HERE = os.path.dirname(os.path.abspath(__file__))
# each picture: its script with arguments, and the example that it reads
PICTURES = {
    "block.svg": (["block_svg.py", "7", "0100150601020304052b2b2b2b2b2b2b2b2b2b2b2b2b2b"], None),
    "places.svg": (["places_svg.py"], None),
    "recording.svg": (["bursts_svg.py"], "recording.txt"),
    "contention.svg": (["link_svg.py", "0"], "contention.txt"),
    "bad_air.svg": (["link_svg.py", "0"], "bad_air.txt"),
    "second_link.svg": (["link_svg.py", "0"], "second_link.txt"),
    "sacch.svg": (["link_svg.py", "0", "sacch"], "sacch.txt"),
    "early_t200.svg": (["link_svg.py", "0"], "early_t200.txt"),
    "reach.svg": (["reach_svg.py"], None),
    "interop.svg": (["interop_svg.py"], None),
}
MEASURED = ("reach.svg", "interop.svg")  # drawn without the program


def made(words, script, um):
    text = open(os.path.join(HERE, "..", "examples", script), encoding="utf-8").read() if script else None
    command = [sys.executable, os.path.join(HERE, words[0]), *(["--um", um] if um else []), *words[1:]]
    done = subprocess.run(command, input=text, capture_output=True, text=True)
    if done.returncode:
        sys.exit(done.stderr)
    return done.stdout


def main():
    asked = argparse.ArgumentParser(description="Draws all pictures of docs/pictures.")
    asked.add_argument("--um", default=os.path.join(HERE, "..", "um"), help="the program (./um)")
    um = asked.parse_args().um
    for name, (words, script) in PICTURES.items():
        picture = made(words, script, None if name in MEASURED else um)
        with open(os.path.join(HERE, "..", "docs", "pictures", name), "w", encoding="utf-8") as file:
            file.write(picture)


if __name__ == "__main__":
    main()
