#!/usr/bin/env bash
# Many sessions between um and libosmogsm, and of each with itself; what T200 costs, and a second RR is worth; many pairs at once; blocks and
# bursts through both codecs.
#
#   measure.sh [SESSIONS]     of each of 32 kinds (8000); takes a quarter of an hour
#
# The lines go to standard output (the last run is measured.txt); summary.py makes tables of them, pictures/interop_svg.py the picture.
# Needs a C compiler, pkg-config and libosmocore (Debian: libosmocore-dev).
set -eu
top=$(cd "$(dirname "${BASH_SOURCE[0]}")/../.." && pwd)
cd "$top"
. checks/common.sh
find_library
work=$(mktemp -d)
trap 'rm -rf "$work"' EXIT
make -s -C bench/interop B="$work" UM="$top/$archive"
each=${1:-8000}

for pair in uo ou uu oo; do
  for scene in 0 m3 n3 b3 all; do
    "$work/sessions" $pair sdcch $scene 2000001 "$each"
  done
  for scene in m3 n3 b3; do
    "$work/sessions" $pair sacch $scene 2000001 "$each"
  done
done
for scene in 0 all; do
  for blocks in 1.5 2.5 3.5 4.5 6.5; do
    for pair in pp uu uo ou oo; do
      "$work/sessions" $pair sdcch $scene 1 300 t200 $blocks loss 0 | sed "s/^/$blocks /"
    done
  done
done
for procedure in mobile network both return; do
  for pair in uu uo ou oo; do
    for loss in 0 100; do
      "$work/procedures" $procedure $pair $loss 1 1000
    done
  done
done
for delay in 1 2; do
  for expiries in 0 1 3; do
    for pair in pp po op oo uu; do
      "$work/early" $pair $expiries $delay
    done
    "$work/early" pp $expiries $delay rr
  done
done
for delay in 1 2 3; do
  for pair in uu uo; do
    "$work/early" $pair 0 $delay $((2 * delay - 1))
    "$work/early" $pair 0 $delay $((2 * delay))
  done
done
for loss in "50 50" "100 100" "200 200" "200 50" "350 50"; do
  for again in 0 1 2; do
    # shellcheck disable=SC2086  # up and down
    "$work/twice" $again $loss 1 40000
  done
done
"$work/scenes" <bench/interop/scenes.txt
"$work/codec" 40000 1
for count in 10 1000 100000; do
  for player in u o; do "$work/pairs" $player $count 60; done
done
for rate in 0 1; do
  for seed in 1 2; do "$work/facch" "$rate" 40000 "$seed"; done
done
