#!/usr/bin/env bash
# The cost of correcting a word, in instructions: a word whose CRC holds, one with an error burst at its start, one with an error burst at
# its end, and one that cannot be corrected. Needs `rt` and valgrind.
set -eu
here=$(cd "$(dirname "$0")" && pwd)
top=$(cd "$here/../.." && pwd)
work=$(mktemp -d)
trap 'rm -rf "$work"' EXIT

# A copy of the crates with an additional program, which is proved and built like the others.
mkdir -p "$work/copy/crates/repair_cost/src"
cp "$top/HANDLES" "$work/copy/"
for crate in bit_blocks fire_code fire_repair; do
	cp -r "$top/crates/$crate" "$work/copy/crates/"
	grep "^$crate:" "$top/crates.txt" >> "$work/copy/crates.txt"
done
echo 'repair_cost: bit_blocks fire_repair anyhow' >> "$work/copy/crates.txt"
cp "$here/program.txt" "$work/copy/crates/repair_cost/src/main.rt"
(cd "$work/copy/crates/repair_cost" && rt run > "$work/build" 2>&1) || { tail -20 "$work/build"; exit 1; }
program=$work/copy/crates/repair_cost/out/repair_cost

# counted WORD TIMES: the instructions of a run
counted() {
	valgrind --tool=callgrind --callgrind-out-file="$work/cg" "$program" "$1" "$2" 2> "$work/said" > "$work/out"
	sed -n 's/.*refs: *//p' "$work/said" | tr -d ,
}

# each WORD: the instructions of a turn
each() {
	echo $((($(counted "$1" 1500) - $(counted "$1" 500)) / 1000))
}

alone=$(each alone)
for word in holds last first none; do
	echo "$word: $(($(each "$word") - alone)) instructions a word"
done
