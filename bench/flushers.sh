#!/bin/sh
# bench/flushers.sh PROGRAM
#
# What flushers side by side gain: feeds PROGRAM (ingestd) 2,000,000 entries of 120 bytes, to 1,000 streams of four shards, with and
# without a flush behind them, by 1, 2 and 4 flushers in turn, five times each. Prints the time of the flush by the clock, which is
# the difference of the least of each, and how often it is that of one flusher. Every entry must be stored, or it stops.
set -eu
program=$1
. "$(dirname "$0")/common.sh"

make_pushes 20000 100 >"$folder/kept"
{ cat "$folder/kept"; echo '{"cmd":"flush"}'; } >"$folder/flushed"

# milliseconds INPUT: how long a run takes by the clock. Its output goes to the file `out`.
milliseconds() {
  begun=$(date +%s%N)
  "$program" "$folder/settings.toml" <"$folder/$1" >"$folder/out"
  ended=$(date +%s%N)
  echo $(((ended - begun) / 1000000))
}

for flushers in 1 2 4; do
  printf 'shards = 4\nflushers = %d\n' "$flushers" >"$folder/settings.toml"
  : >"$folder/times"
  for _ in 1 2 3 4 5; do
    kept=$(milliseconds kept)
    flushed=$(milliseconds flushed)
    tail -1 "$folder/out" | grep -o '"stored":[0-9]*' | awk -F: '{ n += $2 } END { exit n != 2000000 }'
    echo "$kept $flushed" >>"$folder/times"
  done
  awk -v flushers="$flushers" '{ if (NR == 1 || $1 < a) a = $1; if (NR == 1 || $2 < b) b = $2 } END { print flushers, b - a }' "$folder/times"
done >"$folder/figures"
awk '{ if (NR == 1) first = $2; printf "%d flushers: %d ms, %.2f times as fast as one\n", $1, $2, first / $2 }' "$folder/figures"
