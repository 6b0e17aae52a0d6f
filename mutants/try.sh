#!/bin/sh
# Tries the wrong bodies of this folder, all or those of the crates that are named: each must be refused by the prover.
# It works on a copy, as the toolchain knows only the edits that stand in a crate's must-fail. All are tried side by side,
# once every library is built; those of named crates one after another, over the libraries that they need.
set -e
top=$(cd "$(dirname "$0")/.." && pwd)
copy=$(mktemp -d)
trap 'rm -rf "$copy"' EXIT
cd "$top"
jobs=1
[ $# -gt 0 ] || jobs=$(scripts/jobs.sh)
crates=${*:-$(ls -d mutants/*/ | cut -d/ -f2)}
tar cf - --exclude=.git . | tar xf - -C "$copy"
cd "$copy"
rm -f crates/*/must-fail/*.edit
for crate in $crates; do
  mkdir -p "crates/$crate/must-fail"
  cp "mutants/$crate/"*.edit "crates/$crate/must-fail/"
done
[ $# -gt 0 ] || rt all check --jobs "$jobs" >&2
# shellcheck disable=SC2086 # names of crates have no spaces
printf '%s\n' $crates | xargs -P "$jobs" -n 1 rt must-fail
