#!/usr/bin/env bash
# The calls of an end of a link and of a data link from C, and the library's other calls beside libosmocoding's, in turns in one run.
cd "$(dirname "${BASH_SOURCE[0]}")/../.." || exit 1
work=$(mktemp -d) || exit 1
trap 'rm -rf "$work"' EXIT
(cd crates/um_c && rt lib >/dev/null) || exit 1
cc -std=gnu99 -O2 -Ibindings/c bench/library/ends.c crates/um_c/out/libum_c.a -o "$work/ends" || exit 1
"$work/ends"
cc -std=gnu99 -O2 -Ibindings/c bench/library/datalinks.c crates/um_c/out/libum_c.a -o "$work/datalinks" || exit 1
"$work/datalinks"
cc -std=gnu99 -O2 -Ibindings/c bench/library/slots.c crates/um_c/out/libum_c.a -o "$work/slots" || exit 1
"$work/slots"
# instructions PROGRAM ARG..: of a run of the program, with all that it does besides
instructions() {
  valgrind --tool=callgrind --callgrind-out-file=/dev/null "$work/$1" "${@:2}" 2>&1 | sed -n 's/.*refs: *//p' | tr -d ,
}
# glibc without `rep stosb` and `rep movsb`, of which callgrind counts each octet
vectors=glibc.cpu.x86_rep_stosb_threshold=100000000:glibc.cpu.x86_rep_movsb_threshold=100000000
if command -v valgrind >"$work/where"; then
  for call in 0 1 2; do
    echo "call $call of slots.c: $((($(instructions slots $call 1500) - $(instructions slots $call 500)) / 1000)) instructions a block"
  done
  for call in 0 1; do
    more=$(GLIBC_TUNABLES=$vectors instructions datalinks 1500 1 $call)
    less=$(GLIBC_TUNABLES=$vectors instructions datalinks 500 1 $call)
    echo "call $call of datalinks.c: $(((more - less) / 1000)) instructions"
  done
  cc -static -std=gnu99 -O2 -Ibindings/c bench/library/counted.c crates/um_c/out/libum_c.a -o "$work/counted" || exit 1
  sed -n 's/ [0-9,]* instructions$//p' bench/library/measured.txt | while read -r call; do
    echo "$call: $(GLIBC_TUNABLES=$vectors valgrind --tool=callgrind --callgrind-out-file=/dev/null --toggle-collect="$call" \
      "$work/counted" 2>&1 | sed -n 's/.*Collected *: *//p') instructions"
  done
fi
cc -std=gnu99 -O2 -Ibindings/c bench/library/bench.c crates/um_c/out/libum_c.a -o "$work/bench" -losmocoding -losmocore || exit 1
"$work/bench" "$@"
