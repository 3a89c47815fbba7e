#!/usr/bin/env bash
# Compares `um code` with a program over libosmocoding that reads and writes the same lines, on 20,000 random blocks.
# Needs gcc, make, pkg-config, libosmocore-dev, libtalloc-dev, valgrind, python3 and time(1).
. "$(dirname "${BASH_SOURCE[0]}")/common.sh"
prepare
"$um" code <"$work/code20k.in" >"$work/ours.out"
"$work/peer" code <"$work/code20k.in" | cmp - "$work/ours.out"
times code20k.in "${1:-15}" block code "$work/peer" "$um"
instructions code20k.in 1 block "$work/peer" code
instructions code20k.in 1 block "$um" code
resident code20k.in code
