#!/usr/bin/env bash
# What steps of a world cost beside the work of the radio by itself. A message goes from the mobile to the network and is
# answered, by three steps; two of them deliver a block, and one of these two sends one.
# Needs `rt` and valgrind. Instruction counts are exact; of the times, the minimum over all rounds counts, on an idle machine.
set -eu
here=$(cd "$(dirname "$0")" && pwd)
top=$(cd "$here/../.." && pwd)
work=$(mktemp -d)
trap 'rm -rf "$work"' EXIT

# A copy of the crates with an additional program, which is proved and built like the others.
mkdir -p "$work/copy/crates/link_cost/src"
cp "$top/HANDLES" "$work/copy/"
"$top/tools/below" um_link > "$work/copy/crates.txt"
while IFS=: read -r crate _; do
	cp -r "$top/crates/$crate" "$work/copy/crates/"
done < "$work/copy/crates.txt"
echo 'link_cost: lapdm_window um_block um_link anyhow' >> "$work/copy/crates.txt"
cp "$here/program.txt" "$work/copy/crates/link_cost/src/main.rt"
(cd "$work/copy/crates/link_cost" && rt run > "$work/build" 2>&1) || { tail -20 "$work/build"; exit 1; }
program=$work/copy/crates/link_cost/out/link_cost

# counted WORD TIMES: the instructions of a run
counted() {
	valgrind --tool=callgrind --callgrind-out-file="$work/cg" "$program" "$1" "$2" 2> "$work/said" > "$work/out"
	sed -n 's/.*refs: *//p' "$work/said" | tr -d ,
}

# each WORD: the instructions of a message
each() {
	echo $((($(counted "$1" 600) - $(counted "$1" 100)) / 500))
}

# inside NAME: the instructions of a function with all that it calls, in the run counted last
inside() {
	callgrind_annotate --inclusive=yes "$work/cg" >"$work/annotated"
	grep -m 1 -- "$1" "$work/annotated" >"$work/line" || { echo "measure.sh: callgrind has no function $1" >&2; exit 1; }
	awk '{ gsub(",", "", $1); print $1 }' "$work/line"
}

calls=$(each calls)
steps=$(each steps)
echo "a message: $steps instructions by steps, $calls by calls alone, ratio $(awk "BEGIN { printf \"%.2f\", $steps / $calls }")"
counted steps 600 > "$work/all"
deliver=$(inside 'links::WorldState::deliver')
receive=$(inside 'receiving::receive_block')
send=$(inside 'sending::send_block')
alone=$((receive + send / 2))
echo "a step that delivers a block: ratio $(awk "BEGIN { printf \"%.2f\", $deliver / $alone }") to receiving it and coding what is sent"

for ((turn = 0; turn < ${1:-5}; turn++)); do
	"$program" steps 5000 | cut -d' ' -f1 >> "$work/steps"
	"$program" calls 5000 | cut -d' ' -f1 >> "$work/calls"
done
steps=$(sort -n "$work/steps" | head -1)
calls=$(sort -n "$work/calls" | head -1)
echo "time of a message: $((steps / 5000)) ns by steps, $((calls / 5000)) ns by calls alone"
