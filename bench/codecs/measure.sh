#!/usr/bin/env bash
# Instructions and nanoseconds a call of the parts of the codecs, one by one.
# Needs `rt` and valgrind. Instruction counts are exact; of the times, the minimum of five runs counts, on an idle machine.
set -eu
here=$(cd "$(dirname "$0")" && pwd)
top=$(cd "$here/../.." && pwd)
work=$(mktemp -d)
trap 'rm -rf "$work"' EXIT

# A copy of the crates with an additional program, which is proved and built like the others.
mkdir -p "$work/copy/crates/codec_parts/src"
cp "$top/HANDLES" "$work/copy/"
"$top/tools/below" um_block > "$work/copy/crates.txt"
while IFS=: read -r crate _; do
	cp -r "$top/crates/$crate" "$work/copy/crates/"
done < "$work/copy/crates.txt"
echo 'codec_parts: bit_blocks fire_code conv_code interleave training_seq um_block anyhow' >> "$work/copy/crates.txt"
cp "$here/program.txt" "$work/copy/crates/codec_parts/src/main.rt"
(cd "$work/copy/crates/codec_parts" && rt run > "$work/build" 2>&1) || { tail -20 "$work/build"; exit 1; }
program=$work/copy/crates/codec_parts/out/codec_parts

# counted NAME TIMES: the instructions of a run
counted() {
	valgrind --tool=callgrind --callgrind-out-file="$work/cg" "$program" "$1" "$2" 2> "$work/said" > "$work/out"
	sed -n 's/.*refs: *//p' "$work/said" | tr -d ,
}

for name in from_octets to_octets parity coding spreading gathering training sending receiving; do
	for ((turn = 0; turn < 5; turn++)); do
		"$program" "$name" 20000 | cut -d' ' -f1
	done | sort -n | head -1 > "$work/time"
	echo "$name: $((($(counted "$name" 1200) - $(counted "$name" 200)) / 1000)) instructions, $(($(cat "$work/time") / 20000)) ns"
done
