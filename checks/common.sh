# shellcheck shell=bash disable=SC2154
# Functions that the checks share. Each bash script sources this file from the repository's root.
check=${0##*/}
# the user's locale, for what is tried in it; ranges as [a-z], sorting and lower case are those of C in the checks themselves
export UM_LOCALE=${UM_LOCALE-${LC_ALL:-${LC_CTYPE:-${LANG:-}}}} LC_ALL=C.UTF-8

# dist_is_ours: whether dist/ was built from these sources
dist_is_ours() {
  [ -f dist/MANIFEST ] && [ "$(tools/sources)" = "$(sed -n 's/^sources //p' dist/MANIFEST)" ]
}

# find_library: sets archive and shared to the library of dist/ for this machine if it was built from these sources, otherwise to one
# that it proves and builds. False: neither is available.
find_library() {
  local machine
  machine=$(uname -m)
  if dist_is_ours && [ -f "dist/$machine-linux/libum.a" ]; then
    archive=dist/$machine-linux/libum.a
    shared=dist/$machine-linux/libum.so.0
    return
  fi
  command -v rt >/dev/null || { echo "no library here for this machine, built from these sources" >&2; return 1; }
  (cd crates/um_c && rt lib </dev/null) >&2 || return
  archive=crates/um_c/out/libum_c.a
  shared=crates/um_c/out/libum.so.0
  cc -shared -o "$shared" -Wl,-soname,libum.so.0 -Wl,--whole-archive "$archive" -Wl,--no-whole-archive
}

# exports: the names of the functions that um.h declares
exports() {
  sed 's|/\*.*\*/||; /\/\*/,/\*\//d; s|//.*||; /^#/d' bindings/c/um.h | grep -oE '\bum_[a-z0-9_]+ *\(' | tr -d ' (' | LC_ALL=C sort -u
}

# runs WHAT COMMAND..: runs a part of the check, and shows its output if it fails; if UM_PART is set, only the parts whose names it matches
# as a regular expression. Needs $work and $failed
runs() {
  local what=$1
  shift
  [[ $what =~ ${UM_PART:-} ]] || return 0
  ran=yes
  if "$@" >"$work/log" 2>&1; then
    grep "^$check:" "$work/log" || echo "$check: $what"
  else
    cat "$work/log"
    echo "$check: $what: failed"
    failed=1
    return 1
  fi
}

# needed WHAT COMMAND..: runs a part that others need: it runs whatever UM_PART is, and with one it says nothing unless it fails
needed() {
  if [ -z "$UM_PART" ]; then
    runs "$@"
    return
  fi
  "${@:2}" >"$work/log" 2>&1 || { cat "$work/log"; echo "$check: $1: failed"; failed=1; return 1; }
}

# skip PART REASON: tells that a part of the check is left out; checks/run counts such lines, and checks/may_skip lists some
skip() { echo "$check: skipped: $1: $2"; }

# invocations: the lines of checks/invocations
invocations() { grep -v '^#' checks/invocations; }

# ends: ends a check of parts
ends() {
  [ -n "$ran" ] || exit 77
  exit "$failed"
}

# skip_all REASON: ends a check that tested nothing
skip_all() {
  skip everything "$1"
  exit 77
}

# is_here TOOL: whether there is this tool; a Python from 3.9 on
is_here() {
  case $1 in
    *python3) "$1" -c 'import sys; sys.exit(sys.version_info < (3, 9))' 2>/dev/null ;;
    *) command -v "$1" >/dev/null ;;
  esac
}

# has TOOL PART: whether there is this tool; without it the part is left out
has() {
  is_here "$1" && return
  skip "$2" "no $1 here"
  return 1
}

# needs TOOL..: without one of these tools the check tests nothing
needs() {
  local tool
  for tool; do is_here "$tool" || skip_all "no $tool here"; done
}

# has_program PART: whether ./um starts a program here; without one the part is left out
has_program() {
  local said status
  said=$(./um make 1 0 2>&1 >/dev/null)
  status=$?
  [ "$status" -eq 127 ] || return 0
  said=${said#um: }
  said=${said%%, *}
  skip "$1" "no program here: ${said%%: *}"
  return 1
}

# needs_program: without a program the check tests nothing
needs_program() { has_program everything || exit 77; }

# has_cargo PART: whether there is a cargo that can build the crate
has_cargo() {
  local wanted found
  has cargo "$1" || return
  wanted=$(sed -n 's/^rust-version = "\(.*\)"$/\1/p' bindings/rust/Cargo.toml)
  found=$(cargo --version | cut -d ' ' -f 2)
  [ "$(printf '%s\n' "$wanted" "$found" | sort -V | head -n 1)" = "$wanted" ] && return
  skip "$1" "cargo is $found here, and the crate needs $wanted"
  return 1
}

# the emulator of ARM64, from qemu-user or qemu-user-static
qemu='qemu-aarch64'
is_here "$qemu" || qemu='qemu-aarch64-static'

# osmo_sources: the directory of libosmocore's sources, if there is one
osmo_sources() {
  local folder
  for folder in "${LIBOSMOCORE_SOURCE:-}" ../libosmocore-* /usr/src/libosmocore-*; do
    [ -f "$folder/tests/coding/coding_test.c" ] && echo "$folder" && return
  done
  return 1
}

# find_program: sets program to the program that was built from these sources. False: there is none for this machine
find_program() {
  program=crates/um/out/um
  ! dist_is_ours || [ ! -x "dist/$(uname -m)-linux/um" ] || program=dist/$(uname -m)-linux/um
  [ -x "$program" ]
}

# plan CHECK: the seconds that it takes (checks/runner/seconds), the most that it may take, its suite (all; whole: not in a quick run; name:
# only if named), how it runs (timed and builds: one of these after another), and its name. Its head may say so in a line
# `# Runs: whole, timed, 2700 s: REASON`
plan() {
  local line seconds suite=all how=together limit=1800
  line=$(sed -n '2,12s/^# Runs: \([^:]*\).*/, \1,/p' "checks/$1")
  [[ $line != *', whole,'* ]] || suite=whole
  [[ $line != *', by name,'* ]] || suite=name
  [[ $line != *', timed,'* ]] || how=timed
  [[ $line != *', builds,'* ]] || how=builds
  [[ ! $line =~ ', '([0-9]+)' s,' ]] || limit=${BASH_REMATCH[1]}
  seconds=$(sed -n "s/^$1 //p" checks/runner/seconds)
  echo "${seconds:-60} $limit $suite $how $1"
}
