#!/usr/bin/env bash
# Times `tools/in_parts replay` on 260,000 blocks of soft bits (311 MB of lines) with 1, 2 and 4 jobs, and `um.receive_blocks` of the
# Python package on slices of a memory map of the same soft bits: wall time and processor time, the least of all rounds. Needs python3;
# the second part numpy for it. parts.sh [ROUNDS]
. "$(dirname "${BASH_SOURCE[0]}")/common.sh"
python3 - "$top" "$work" "${1:-5}" <<'P'
import os, random, resource, subprocess, sys, time
top, work, rounds = sys.argv[1:]
draw = random.Random(7)
words = "".join(f"block 7 {draw.randbytes(23).hex()}\n" for _ in range(2000))
coded = subprocess.run([top + "/um", "code"], input=words.encode(), stdout=subprocess.PIPE, check=True).stdout
# about a tenth of the soft bits have the wrong sign
values = [max(-127, min(127, round(draw.gauss(48, 36)))) for _ in range(1 << 14)]
soft = bytearray()
for line in coded.split(b"\n")[:-1]:
    soft += bytes((value if bit == 48 else -value) & 255 for bit, value in zip(line[2:], draw.choices(values, k=148)))
lines = "".join(f"N {soft[at : at + 148].hex()}\n" for at in range(0, len(soft), 148)).encode()
with open(work + "/lines", "wb") as file, open(work + "/raw", "wb") as raw:
    for _ in range(130):
        file.write(lines)
        raw.write(soft)
receive = f"""
import sys; sys.path.insert(0, {top + "/bindings/python"!r})
import numpy, um
soft = numpy.memmap({work + "/raw"!r}, numpy.int8).reshape(-1, 4, 148)
for first in range(0, len(soft), 20000):
    um.receive_blocks(soft[first : first + 20000])
"""
runs = {f"in_parts --jobs {jobs}": [top + "/tools/in_parts", "--jobs", jobs, "replay"] for jobs in "124"}
if subprocess.run([sys.executable, "-c", "import numpy"], stderr=subprocess.DEVNULL).returncode == 0:
    runs["um.receive_blocks"] = [sys.executable, "-c", receive]
print(f"{os.path.getsize(work + '/lines') / 1e6:.0f} MB of lines")
least = {name: (1e9, 1e9) for name in runs}
for _ in range(int(rounds)):
    for name, run in runs.items():
        with open(work + "/lines", "rb") as file, open(work + "/out", "wb") as out:
            before, start = resource.getrusage(resource.RUSAGE_CHILDREN), time.monotonic()
            subprocess.run(run, stdin=file, stdout=out, check=True)
            wall, after = time.monotonic() - start, resource.getrusage(resource.RUSAGE_CHILDREN)
        spent = after.ru_utime + after.ru_stime - before.ru_utime - before.ru_stime
        least[name] = min(least[name][0], wall), min(least[name][1], spent)
for name, (wall, spent) in least.items():
    print(f"{name}: {wall:.2f} s, {spent:.2f} s of processors")
P
