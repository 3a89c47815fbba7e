#!/usr/bin/env bash
# Measures `um show` on 20,000 `octets` lines, without comparison: the peer has no frames.
# Needs gcc, make, pkg-config, libosmocore-dev, libtalloc-dev, valgrind, python3 and time(1).
. "$(dirname "${BASH_SOURCE[0]}")/common.sh"
prepare
times octets20k.in "${1:-15}" line show "$um"
instructions octets20k.in 1 line "$um" show
resident octets20k.in show
