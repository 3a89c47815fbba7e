#!/usr/bin/env bash
# Nanoseconds for 228 bits: `decode` of trellis_decode, `ListDecoder` of list_decode with one list given and with 64, in turns. Needs `rt`.
# The minimum over all rounds counts, because other load only adds time.
set -eu
here=$(cd "$(dirname "$0")" && pwd)
top=$(cd "$here/../.." && pwd)
work=$(mktemp -d)
trap 'rm -rf "$work"' EXIT

# A copy of the crates with an additional program, which is proved and built like the others.
mkdir -p "$work/copy/crates/bench_ranked/src" "$work/copy/crates/bench_ranked/proofs/give"
cp "$top/HANDLES" "$work/copy/"
"$top/tools/below" list_decode > "$work/copy/crates.txt"
while IFS=: read -r crate _; do
	cp -r "$top/crates/$crate" "$work/copy/crates/"
done < "$work/copy/crates.txt"
echo 'bench_ranked: bit_blocks conv_code trellis_decode list_decode anyhow' >> "$work/copy/crates.txt"
cp "$here/ranked.txt" "$work/copy/crates/bench_ranked/src/main.rt"
cp "$here/ranked_loop.txt" "$work/copy/crates/bench_ranked/proofs/give/Invariants.antt"
(cd "$work/copy/crates/bench_ranked" && rt run > "$work/build" 2>&1) || { tail -20 "$work/build"; exit 1; }

turns=${1:-5}
for ((turn = 0; turn < turns; turn++)); do
	"$work/copy/crates/bench_ranked/out/bench_ranked" 2>> "$work/sums" >> "$work/times"
done
decode=$(cut -d' ' -f1 "$work/times" | sort -n | head -1)
first=$(cut -d' ' -f2 "$work/times" | sort -n | head -1)
all=$(cut -d' ' -f3 "$work/times" | sort -n | head -1)
echo "decode $decode ns, one list $first ns, 64 lists $all ns"
