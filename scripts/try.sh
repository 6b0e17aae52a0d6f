#!/bin/sh
# Runs the program of a crate on standard input before any proof, as `rt try` does with these words, and says on standard error
# what it waits for: all that the program writes comes at its end.
set -e
cd "$(dirname "$0")/../crates/$1"
echo "nothing is proved: $1 is compiled, for some two minutes, and run; all that it writes comes at the end, up to 1 MiB" >&2
shift
( waited=0
  while sleep 15 >/dev/null 2>&1; do
    waited=$((waited + 15))
    echo "compiling or running for $waited seconds" >&2
  done ) &
ticker=$!
trap 'kill "$ticker" 2>/dev/null' EXIT
rt try "$@"
