#!/usr/bin/env bash
# A group of four bursts received by `um end` beside `um replay`, and an answer beside `um code`, by instructions.
# Needs valgrind and python3.
. "$(dirname "${BASH_SOURCE[0]}")/common.sh"
"$top/um" end net 0 </dev/null

# Units of 10 octets that the network sends: as lines of `code`, as calls of a network's end, and as bursts.
python3 - "$work" <<'P'
import random, sys
pick = random.Random(1)
work = sys.argv[1]
with open(f"{work}/blocks.in", "w") as blocks, open(f"{work}/calls.in", "w") as calls:
    for _ in range(1500):
        info = bytes(pick.randrange(256) for _ in range(10)).hex()
        blocks.write(f"block 0 030329{info}{10 * '2b'}\n")
        calls.write(f"net unit {info}\n")
P
"$um" code <"$work/blocks.in" >"$work/bursts.in"
"$um" end net 0 <"$work/calls.in" | grep '^n ' | cmp - "$work/bursts.in"

# A unit of no octet, which a network's end takes, and a DISC, which it answers by DM: the difference is an answer.
for frame in 'ui p 0 info -' 'disc p 1'; do
  octets=$(echo "frame sapi 0 cr 0 $frame" | "$um" show)
  yes "block 0 ${octets#octets }" | head -1500 | "$um" code >"$work/${frame%% *}.in"
done

# counted FILE LINES WORD ..: what 1,000 units more cost, of so many lines each
counted() {
  local file=$1 lines=$2
  shift 2
  for n in 500 1500; do
    head -$((n * lines)) "$work/$file" >"$work/part"
    valgrind --tool=callgrind --callgrind-out-file="$work/cg" "$um" "$@" <"$work/part" 2>"$work/v.$n" >/dev/null
  done
  python3 - "$work" "$*" <<'P'
import re, sys
few, many = (int(re.search(r"refs: *([0-9,]+)", open(f"{sys.argv[1]}/v.{n}").read()).group(1).replace(",", "")) for n in (500, 1500))
print(f"{sys.argv[2]}: {(many - few) // 1000} instructions a unit")
P
}
counted bursts.in 4 replay
counted bursts.in 4 end mob 0
counted blocks.in 1 code
counted calls.in 1 end net 0
counted ui.in 4 end net 0
counted disc.in 4 end net 0
