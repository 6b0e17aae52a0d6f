#!/bin/sh
# Proves and builds the program of a crate, and says on standard error how far that is: which crate of how many, and how many
# of its functions. The toolchain builds a program by running it, here on empty input and with the further arguments.
set -e
cd "$(dirname "$0")/.."
crate=$1
shift
log=$(mktemp)
trap 'rm -f "$log" "$log.status"' EXIT

# How many crates of this repository it stands on, with itself.
count=$(awk -v start="$crate" '
  /^[^#]/ { name = $1; sub(/:.*/, "", name); below = $0; sub(/^[^:]*:/, "", below); needs[name] = below }
  function visit(name,   list, last, i) {
    if (name in seen || !(name in needs)) return
    seen[name] = 1; count++
    last = split(needs[name], list, " ")
    for (i = 1; i <= last; i++) visit(list[i])
  }
  END { visit(start); print count }' crates.txt)

echo "proving $crate and what it calls, $count crates: an hour or more where nothing is kept yet" >&2
{ (cd "crates/$crate" && rt run -- "$@") </dev/null 2>&1 || echo $? >"$log.status"; } | tee "$log" | awk -v count="$count" '
  /^rt: chose --jobs [0-9]+ for / { crate = $NF; printf "%s, crate %d of at most %d\n", crate, ++place, count; fflush() }
  /^so far: [0-9]+ of [0-9]+ functions checked/ { printf "%s: %s of %s functions\n", crate, $3, $5; fflush() }' >&2
if [ -e "$log.status" ]; then
  tail -n 40 "$log" >&2
  exit "$(cat "$log.status")"
fi
