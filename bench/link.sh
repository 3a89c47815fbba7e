#!/usr/bin/env bash
# `um link 0` over a script beside as many blocks sent and received by themselves: 5,000 messages of 20 octets, each sent,
# delivered and acknowledged by three lines, two blocks sent and two received. Needs `rt`, valgrind, python3 and time(1).
. "$(dirname "${BASH_SOURCE[0]}")/common.sh"
"$top/um" link 0 </dev/null
prepare_calls
python3 - >"$work/script" <<'P'
print("mob open 01\nup deliver\ndown deliver")
for number in range(5000):
    octets = "".join(f"{(number + place) % 256:02x}" for place in range(20))
    print(f"mob send {octets}\nup deliver\ndown deliver")
P
beside "$work/script" 10002 10002 "${1:-9}" link 0
/usr/bin/time -f "%M kB resident: um link 0" "$um" link 0 <"$work/script" >/dev/null
