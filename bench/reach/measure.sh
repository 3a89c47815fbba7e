#!/usr/bin/env bash
# Block loss over a noisy channel: libosmocoding, um, um with list decoding, with erasures, and by a time slot.
cd "$(dirname "${BASH_SOURCE[0]}")/../.." || exit 1
. checks/common.sh
work=$(mktemp -d) || exit 1
trap 'rm -rf "$work"' EXIT
find_library || exit 1
cc -std=gnu99 -O2 -Wall -Wextra -Ibindings/c bench/reach/reach.c "$archive" -o "$work/reach" -losmocoding -losmocore -lm || exit 1
"$work/reach" "$@"
