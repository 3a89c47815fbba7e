#!/usr/bin/env bash
# Nanoseconds a list of 228 bits: `decode` of trellis_decode beside osmo_conv_decode of libosmocoding, in turns. Where valgrind is
# installed, instructions too; they include the loop around the calls.
# Needs `rt`, gcc, pkg-config and libosmocore-dev. The minimum over all rounds counts, because other load only adds time.
set -eu
here=$(cd "$(dirname "$0")" && pwd)
top=$(cd "$here/../.." && pwd)
work=$(mktemp -d)
trap 'rm -rf "$work"' EXIT

read -ra flags < <(pkg-config --cflags --libs libosmocoding libosmogsm libosmocore)
gcc -O2 -o "$work/peer" "$here/peer.c" "${flags[@]}"

# A copy of the crates with an additional program, which is proved and built like the others.
mkdir -p "$work/copy/crates/bench_decode/src"
cp "$top/HANDLES" "$work/copy/"
"$top/tools/below" trellis_decode > "$work/copy/crates.txt"
while IFS=: read -r crate _; do
	cp -r "$top/crates/$crate" "$work/copy/crates/"
done < "$work/copy/crates.txt"
echo 'bench_decode: bit_blocks conv_code trellis_decode anyhow' >> "$work/copy/crates.txt"
cp "$here/program.txt" "$work/copy/crates/bench_decode/src/main.rt"
(cd "$work/copy/crates/bench_decode" && rt run > "$work/build" 2>&1) || { tail -20 "$work/build"; exit 1; }

turns=${1:-5}
for ((turn = 0; turn < turns; turn++)); do
	"$work/peer" 2>> "$work/sums" >> "$work/theirs"
	"$work/copy/crates/bench_decode/out/bench_decode" 2>> "$work/sums" >> "$work/ours"
done
theirs=$(sort -n "$work/theirs" | head -1)
ours=$(sort -n "$work/ours" | head -1)
# Both programs decode 100,000 lists.
instructions() {
	valgrind --tool=callgrind --callgrind-out-file=/dev/null "$1" 2>&1 > "$work/printed" |
		awk '/ refs:/ { gsub(",", "", $NF); printf "%d", $NF / 100000 }'
}
if command -v valgrind > "$work/where"; then
	echo "instructions: osmo_conv_decode $(instructions "$work/peer")," \
		"decode $(instructions "$work/copy/crates/bench_decode/out/bench_decode")"
fi
echo "osmo_conv_decode $theirs ns, decode $ours ns, ratio $(awk "BEGIN { printf \"%.2f\", $ours / $theirs }")"
