#!/usr/bin/env bash
# `um make 1000 7` beside as many blocks sent and received by themselves. Needs `rt`, valgrind, python3 and time(1).
. "$(dirname "${BASH_SOURCE[0]}")/common.sh"
"$top/um" make 1 0 >/dev/null
prepare_calls
beside /dev/null 14536 13568 "${1:-9}" make 1000 7
/usr/bin/time -f "%M kB resident: um make 1000 7" "$um" make 1000 7 >/dev/null
