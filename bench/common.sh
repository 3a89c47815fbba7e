# shellcheck shell=bash
# Functions that the measurements of the program share. Each script sources this file.
set -eu
here=$(cd "$(dirname "${BASH_SOURCE[0]}")" && pwd)
top=$(cd "$here/.." && pwd)
# the program that the script `um` starts
um=$(UM_SHOW_PROGRAM=yes "$top/um" code)
work=$(mktemp -d)
trap 'rm -rf "$work"' EXIT

# prepare: builds the peer with its inputs
prepare() {
  cp "$here"/peer/* "$work/"
  make -s -C "$work"
  (cd "$work" && python3 gen_files.py "$work" ./peer)
}

# times FILE ROUNDS UNIT COMMAND [PROGRAM ..]: wall time of each program with the command over the file, per unit of its 20,000 units;
# the minimum over alternating rounds, and the ratio of the last program to the first
times() {
  python3 - "$work" "$@" <<'P'
import os, subprocess, sys, time
work, file, rounds, unit, command, *programs = sys.argv[1:]
least = {program: 1e9 for program in programs}
for turn in range(int(rounds)):
    for program in programs:
        with open(f"{work}/{file}", "rb") as lines, open(work + "/out", "wb") as out:
            start = time.perf_counter()
            subprocess.run([program, command], stdin=lines, stdout=out, check=True)
            least[program] = min(least[program], time.perf_counter() - start)
for program, seconds in least.items():
    print(f"{file}, {os.path.basename(program)} {command}: {seconds / 20000 * 1e6:.2f} us a {unit}")
if len(programs) > 1:
    print(f"{file}, ratio {least[programs[-1]] / least[programs[0]]:.2f}")
P
}

# instructions FILE LINES UNIT PROGRAM COMMAND: the callgrind cost of 1,000 more units of LINES lines each
instructions() {
  local few many
  for n in 500 1500; do
    head -$((n * $2)) "$work/$1" >"$work/part"
    valgrind --tool=callgrind --callgrind-out-file="$work/cg" "$4" "$5" <"$work/part" 2>"$work/v.$n" >/dev/null
  done
  few=$(sed -n 's/.*refs: *//p' "$work/v.500" | tr -d ,)
  many=$(sed -n 's/.*refs: *//p' "$work/v.1500" | tr -d ,)
  echo "$1, ${4##*/} $5: $(((many - few) / 1000)) instructions a $3"
}

# resident FILE COMMAND: the program's resident memory
resident() {
  /usr/bin/time -f "%M kB resident: um $2, $1" "$um" "$2" <"$work/$1" >/dev/null
}

# prepare_calls: builds a program that only sends and receives blocks, in a copy of the crates, as $calls
prepare_calls() {
  local crate
  mkdir -p "$work/copy/crates/radio_cost/src"
  cp "$top/HANDLES" "$work/copy/"
  "$top/tools/below" um_block >"$work/copy/crates.txt"
  while IFS=: read -r crate _; do
    cp -r "$top/crates/$crate" "$work/copy/crates/"
  done <"$work/copy/crates.txt"
  echo 'radio_cost: um_block anyhow' >>"$work/copy/crates.txt"
  cp "$here/radio/program.txt" "$work/copy/crates/radio_cost/src/main.rt"
  (cd "$work/copy/crates/radio_cost" && rt run >"$work/build" 2>&1) || { tail -20 "$work/build"; exit 1; }
  calls=$work/copy/crates/radio_cost/out/radio_cost
}

# beside FILE SENDS RECEIVES ROUNDS WORD ..: the cost of the program with these arguments over the file, compared with as many plain
# calls of `send_block` and `receive_block`: wall time, the minimum over alternating rounds, and instructions
beside() {
  python3 - "$um" "$calls" "$@" <<'P'
import subprocess, sys, time
um, calls, file, sends, receives, rounds, *words = sys.argv[1:]
runs = {"um " + " ".join(words): [um, *words], "calls alone": [calls, sends, receives]}
least = {name: 1e9 for name in runs}
counted = {}
def start(command, **more):
    with open(file, "rb") as lines:
        return subprocess.run(command, stdin=lines, stdout=subprocess.DEVNULL, check=True, **more)
for turn in range(int(rounds)):
    for name, command in runs.items():
        begin = time.perf_counter()
        start(command)
        least[name] = min(least[name], time.perf_counter() - begin)
for name, command in runs.items():
    said = start(["valgrind", "--tool=callgrind", "--callgrind-out-file=/dev/null", *command], stderr=subprocess.PIPE).stderr
    counted[name] = int(said.decode().split("refs:")[1].split()[0].replace(",", ""))
for name in runs:
    print(f"{name}: {least[name] * 1e3:.1f} ms, {counted[name]:,} instructions, {sends} blocks sent and {receives} received")
ours, alone = runs
print(f"ratio {least[ours] / least[alone]:.2f} in time, {counted[ours] / counted[alone]:.2f} in instructions")
P
}
