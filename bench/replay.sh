#!/usr/bin/env bash
# Compares `um replay` with a program over libosmocoding that reads the same lines, on 20,000 hard and 20,000 soft blocks.
# Needs gcc, make, pkg-config, libosmocore-dev, libtalloc-dev, valgrind, python3 and time(1).
. "$(dirname "${BASH_SOURCE[0]}")/common.sh"
prepare

# The peer with its option -c chooses as `um` does. It knows neither the training sequence nor the second line.
words() {
  sed -n 's/^block .*\(parity .*\)/\1/p'
}
for file in hard20k.in soft20k.in; do
  "$um" replay <"$work/$file" | words >"$work/ours"
  "$work/peer" replay -c <"$work/$file" | words >"$work/theirs"
  echo "$file: $(diff "$work/ours" "$work/theirs" | grep -c '^<') of $(wc -l <"$work/ours") blocks differ from libosmocoding's"
done

for file in hard20k.in soft20k.in; do
  times "$file" "${1:-9}" block replay "$work/peer" "$um"
  instructions "$file" 4 block "$work/peer" replay
  instructions "$file" 4 block "$um" replay
done
resident soft20k.in replay
