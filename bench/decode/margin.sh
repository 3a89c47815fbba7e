#!/usr/bin/env bash
# Nanoseconds a list of 228 bits: `margin` of list_decode beside `decode` of trellis_decode, in turns. Needs `rt`.
# The minimum over all rounds counts, because other load only adds time.
set -eu
here=$(cd "$(dirname "$0")" && pwd)
top=$(cd "$here/../.." && pwd)
work=$(mktemp -d)
trap 'rm -rf "$work"' EXIT

# A copy of the crates with an additional program, which is proved and built like the others.
mkdir -p "$work/copy/crates/bench_margin/src"
cp "$top/HANDLES" "$work/copy/"
"$top/tools/below" list_decode > "$work/copy/crates.txt"
while IFS=: read -r crate _; do
	cp -r "$top/crates/$crate" "$work/copy/crates/"
done < "$work/copy/crates.txt"
echo 'bench_margin: bit_blocks conv_code trellis_decode list_decode anyhow' >> "$work/copy/crates.txt"
cp "$here/margin.txt" "$work/copy/crates/bench_margin/src/main.rt"
(cd "$work/copy/crates/bench_margin" && rt run > "$work/build" 2>&1) || { tail -20 "$work/build"; exit 1; }

turns=${1:-5}
for ((turn = 0; turn < turns; turn++)); do
	"$work/copy/crates/bench_margin/out/bench_margin" 2>> "$work/sums" >> "$work/times"
done
decode=$(cut -d' ' -f1 "$work/times" | sort -n | head -1)
margin=$(cut -d' ' -f2 "$work/times" | sort -n | head -1)
echo "decode $decode ns, margin $margin ns, ratio $(awk "BEGIN { printf \"%.2f\", $margin / $decode }")"
