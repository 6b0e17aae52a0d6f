#!/bin/sh
# bench/pushes.sh PROGRAM
#
# What pushes, flushes and queries cost: feeds PROGRAM (ingestd) inputs that it makes in a folder of its own, and prints four
# tables. Every entry must be accepted, stored where it is flushed, and found where it is asked for, or it stops. Processor
# time is user and system together, by /usr/bin/time where it is there and else by the shell. Both count in hundredths of a
# second, so inputs below a million entries are run five times together, those with queries twice, and the figure is a fifth
# or a half of the time; it is the least of three such. Peak memory is known by /usr/bin/time alone.
set -eu
program=$1
. "$(dirname "$0")/common.sh"
printf 'max_streams_per_tenant = 100000\n' >"$folder/settings.toml"

# make_input ENTRIES STREAMS ENTRIES_A_PUSH BYTES_A_LINE in|out: the input, as push lines. An entry a push goes to the streams
# in turn; more go as many to a stream as it ever gets. A millisecond lies between stamps; `out` sets each back by up to 999
# seconds, which the window of an hour allows.
make_input() {
  awk -v entries="$1" -v streams="$2" -v per_push="$3" -v bytes="$4" -v order="$5" 'BEGIN {
    run = entries / streams
    if (run > per_push) run = per_push
    padding = "x"
    while (length(padding) < bytes) padding = padding padding
    padding = substr(padding, 1, bytes - 8)
    for (i = 0; i < entries; i++) {
      place = i % per_push
      if (place == 0) printf "%s", "{\"cmd\":\"push\",\"tenant\":\"t\",\"now\":\"2000000000000000\",\"streams\":["
      if (place % run == 0) {
        if (place > 0) printf "%s", ","
        printf "{\"stream\":{\"app\":\"web\",\"pod\":\"p%d\"},\"values\":[", int(i / run) % streams
      } else printf "%s", ","
      seconds = 1000000 + int(i / 1000)
      if (order == "out") seconds -= (i * 7919) % 1000
      printf "[\"%d%03d000000\",\"%08d", seconds, i % 1000, i
      printf "%s", padding
      printf "%s", "\"]"
      if (place % run == run - 1) printf "%s", "]}"
      if (place == per_push - 1) print "]}"
    }
  }'
}

# The runs that are timed together; $0 is the program.
cat >"$folder/runs.sh" <<'END'
for _ in $4; do
  "$0" "$1" <"$2" >"$3" || exit 1
done
END

# run INPUT TURNS: runs as often as there are words in TURNS. Sets `seconds`, of one run, and `kibibytes` (`-` where it is not
# known); the output goes to the file `out`.
run() {
  if [ -x /usr/bin/time ] && /usr/bin/time -f '%U %S %M' -o "$folder/cost" true 2>/dev/null; then
    /usr/bin/time -f '%U %S %M' -o "$folder/cost" \
      sh -c "$(cat "$folder/runs.sh")" "$program" "$folder/settings.toml" "$1" "$folder/out" "$2"
  else
    (
      sh -c "$(cat "$folder/runs.sh")" "$program" "$folder/settings.toml" "$1" "$folder/out" "$2"
      times >"$folder/times"
    )
    awk 'NR == 2 { split($1, u, /[ms]/); split($2, s, /[ms]/); print u[1] * 60 + u[2], s[1] * 60 + s[2], "-" }' \
      "$folder/times" >"$folder/cost"
  fi
  read -r user system kibibytes <"$folder/cost"
  seconds=$(awk -v u="$user" -v s="$system" -v turns="$2" 'BEGIN { print (u + s) / split(turns, turn) }')
}

# least INPUT TURNS: sets `least_seconds` and `least_kibibytes`, the least of three.
least() {
  least_seconds=
  least_kibibytes=
  for _ in 1 2 3; do
    run "$1" "$2"
    least_seconds=$(printf '%s\n' "${least_seconds:-$seconds}" "$seconds" | sort -n | head -n 1)
    least_kibibytes=$(printf '%s\n' "${least_kibibytes:-$kibibytes}" "$kibibytes" | sort -n | head -n 1)
  done
}

# row ENTRIES STREAMS ENTRIES_A_PUSH BYTES_A_LINE in|out: measures, and prints a line of the table. The last figure is that
# of the same lines under a command that there is none of: they are read, and refused.
row() {
  turns='1 2 3 4 5'
  [ "$1" -lt 1000000 ] || turns=1
  make_input "$@" >"$folder/input"
  least "$folder/input" "$turns"
  accepted=$(sed -n '$s/.*"accepted":\([0-9]*\),.*/\1/p' "$folder/out")
  if [ "$accepted" != "$1" ]; then
    echo "of $1 entries ${accepted:-none} accepted: $*" >&2
    exit 1
  fi
  push_seconds=$least_seconds
  push_kibibytes=$least_kibibytes
  sed 's/^{"cmd":"push"/{"cmd":"none"/' "$folder/input" >"$folder/refused"
  rm "$folder/input"
  least "$folder/refused" "$turns"
  rm "$folder/refused"
  awk -v entries="$1" -v streams="$2" -v per_push="$3" -v bytes="$4" -v order="$5" -v seconds="$push_seconds" \
    -v kibibytes="$push_kibibytes" -v refused="$least_seconds" 'BEGIN {
      a_second = seconds > 0 ? sprintf("%.0f", entries / seconds) : "-"
      memory = kibibytes == "-" ? "-" : sprintf("%.2f", kibibytes * 1024 / (entries * (16 + bytes)))
      printf "| %d | %d | %d | %d | %s | %s | %.2f | %.2f | %s |\n", entries, streams, per_push, bytes, order, a_second,
        seconds * 1000000 / entries, refused * 1000000 / entries, memory
    }'
}

# flush_row ENTRIES STREAMS BYTES_A_LINE: the pushes of row, 100 entries each and in order, and then a flush of all. What the
# pushes take alone is taken off.
flush_row() {
  make_input "$1" "$2" 100 "$3" in >"$folder/input"
  least "$folder/input" 1
  push_seconds=$least_seconds
  echo '{"cmd":"flush"}' >>"$folder/input"
  least "$folder/input" 1
  rm "$folder/input"
  stored=$(sed -n '$s/.*"stored":\([0-9]*\).*/\1/p' "$folder/out")
  if [ "$stored" != "$1" ]; then
    echo "of $1 entries ${stored:-none} stored: $*" >&2
    exit 1
  fi
  awk -v entries="$1" -v streams="$2" -v bytes="$3" -v seconds="$least_seconds" -v pushes="$push_seconds" \
    -v kibibytes="$least_kibibytes" 'BEGIN {
      flush = seconds - pushes
      a_second = flush > 0 ? sprintf("%.0f", entries / flush) : "-"
      memory = kibibytes == "-" ? "-" : sprintf("%.2f", kibibytes * 1024 / (entries * (16 + bytes)))
      printf "| %d | %d | %d | %s | %.2f | %s |\n", entries, streams, bytes, a_second, flush * 1000000 / entries, memory
    }'
}

# query_row memory|store|both PICKED QUERIES LIMIT: so many queries of the newest entries, one like the other, that pick 1 of 200
# streams or all of them. Each stream has 1,000 entries, with lines of 120 bytes, which stand in memory, are flushed, or are half
# flushed. What pushes and flushes take alone is taken off.
query_row() {
  selector='{app=\\\"web\\\"}'
  [ "$2" = 200 ] || selector='{pod=\\\"p7\\\"}'
  make_input 200000 200 100 120 in >"$folder/pushes"
  head -n 1000 "$folder/pushes" >"$folder/input"
  [ "$1" = memory ] || echo '{"cmd":"flush"}' >>"$folder/input"
  tail -n 1000 "$folder/pushes" >>"$folder/input"
  [ "$1" != store ] || echo '{"cmd":"flush"}' >>"$folder/input"
  rm "$folder/pushes"
  least "$folder/input" '1 2'
  push_seconds=$least_seconds
  awk -v queries="$3" -v selector="$selector" -v limit="$4" 'BEGIN {
    for (i = 0; i < queries; i++) printf "{\"cmd\":\"query\",\"tenant\":\"t\",\"query\":\"%s\",\"limit\":%d}\n", selector, limit
  }' >>"$folder/input"
  least "$folder/input" '1 2'
  rm "$folder/input"
  there=$(($2 * 1000))
  [ "$there" -le "$4" ] || there=$4
  found=$(grep '^{"query"' "$folder/out" | grep -o '"stream"' | wc -l)
  if [ "$found" != "$(($3 * there))" ]; then
    echo "$found entries found of $(($3 * there)): $*" >&2
    exit 1
  fi
  awk -v place="$1" -v picked="$2" -v queries="$3" -v limit="$4" -v seconds="$least_seconds" -v pushes="$push_seconds" 'BEGIN {
      time = seconds - pushes
      a_second = time > 0 ? sprintf("%.0f", queries / time) : "-"
      printf "| %s | %d | %d | %s | %.2f |\n", place, picked, limit, a_second, time * 1000 / queries
    }'
}

# time_of streams|chunks SIZE: sets `query_seconds`, of 10,000 queries of the newest 100 entries of one stream. It is one of
# SIZE streams of 100 entries, which are flushed, or has SIZE stored chunks of 100 entries, of which all but the newest lie
# before the range. What pushes and flushes take alone is taken off.
time_of() {
  if [ "$1" = streams ]; then
    make_input "$(($2 * 100))" "$2" 100 120 in >"$folder/input"
    echo '{"cmd":"flush"}' >>"$folder/input"
    start=0
  else
    make_input "$(($2 * 100))" 1 100 120 in | awk '{ print; print "{\"cmd\":\"flush\"}" }' >"$folder/input"
    start=$((1000000000 + $2 * 100 - 100))000000
  fi
  least "$folder/input" '1 2'
  push_seconds=$least_seconds
  pod=0
  [ "$1" = chunks ] || pod=7
  awk -v pod="$pod" -v start="$start" 'BEGIN {
    for (i = 0; i < 10000; i++)
      printf "{\"cmd\":\"query\",\"tenant\":\"t\",\"query\":\"{pod=\\\"p%d\\\"}\",\"start\":\"%s\"}\n", pod, start
  }' >>"$folder/input"
  least "$folder/input" '1 2'
  rm "$folder/input"
  found=$(grep '^{"query"' "$folder/out" | grep -o '"stream"' | wc -l)
  if [ "$found" != 1000000 ]; then
    echo "$found entries found of 1000000: $*" >&2
    exit 1
  fi
  query_seconds=$(awk -v seconds="$least_seconds" -v pushes="$push_seconds" 'BEGIN { print seconds - pushes }')
}

# grown_row streams|chunks SIZE: what a query takes where there are so many, and 16 times as many.
grown_row() {
  time_of "$1" "$2"
  small_seconds=$query_seconds
  time_of "$1" "$(($2 * 16))"
  awk -v what="$1" -v size="$2" -v small="$small_seconds" -v large="$query_seconds" 'BEGIN {
    exponent = small > 0 && large > 0 ? sprintf("%.2f", log(large / small) / log(16)) : "-"
    printf "| %s | %d | %d | %.3f | %.3f | %s |\n", what, size, size * 16, small / 10, large / 10, exponent
  }'
}

echo '| Entries | streams | entries a push | bytes a line | stamps in or out of order | entries a second | microseconds an entry | of these read and refused | peak memory by held bytes |'
echo '|---|---|---|---|---|---|---|---|---|'
for order in in out; do
  for streams in 1 1000 100000; do
    for per_push in 1 100; do
      row 100000 "$streams" "$per_push" 120 "$order"
    done
  done
done
for order in in out; do
  for streams in 1 1000; do
    for per_push in 1 100; do
      row 20000 "$streams" "$per_push" 4096 "$order"
    done
  done
done
row 1000000 1000 1 120 in

echo
echo '| Entries flushed | streams | bytes a line | entries a second | microseconds an entry | peak memory by held bytes |'
echo '|---|---|---|---|---|---|'
for streams in 1 1000 100000; do
  flush_row 500000 "$streams" 120
done
flush_row 50000 1000 4096
flush_row 2000000 1000 120

echo
echo '| Queries over | streams picked of 200 | limit | queries a second | milliseconds a query |'
echo '|---|---|---|---|---|'
for place in memory store both; do
  for limit in 100 5000; do
    query_row "$place" 1 200 "$limit"
    query_row "$place" 200 20 "$limit"
  done
done

echo
echo '| What grows, none of it in the answer | from | to | milliseconds a query | with 16 times as many | exponent |'
echo '|---|---|---|---|---|---|'
grown_row streams 200
grown_row chunks 64
