#!/usr/bin/env bash
# What each crate costs to prove from nothing: processor seconds of `rt check`, four crates side by side, in a fresh clone of each
# commit that is named (HEAD if none is).
# Needs make and GNU time.
set -eu
top=$(cd "$(dirname "${BASH_SOURCE[0]}")/.." && pwd)
work=$(mktemp -d)
trap 'rm -rf "$work"' EXIT

# rules: the crates of crates.txt as rules of make, each behind those of the repository that it stands on
rules() {
  local left right crate
  local crates
  crates=" $(sed -n 's/^\([a-z_]*\)[ :].*/\1/p' crates.txt | tr '\n' ' ')"
  echo "all:$crates"
  while IFS=: read -r left right; do
    left=${left%% *}
    [[ $crates == *" $left "* ]] || continue
    printf '%s:' "$left"
    for crate in $right; do
      [[ $crates != *" $crate "* ]] || printf ' %s' "$crate"
    done
    printf '\n\tcd crates/%s && /usr/bin/time -f %%U+%%S -o ../../%s.seconds rt check --jobs 1 >../../%s.log 2>&1\n' "$left" "$left" "$left"
  done <crates.txt
}

for commit in "${@:-HEAD}"; do
  clone=$work/$commit
  git clone -q "$top" "$clone"
  cd "$clone"
  git checkout -q "$commit"
  rules >"$work/rules"
  make -s -j4 -f "$work/rules" all
  for seconds in *.seconds; do
    echo "$commit ${seconds%.seconds} $(bc <"$seconds")"
  done
  echo "$commit all $(cat ./*.seconds | paste -sd+ | bc)"
done
