#!/bin/sh
# Prints each crate with the number of ways that lead down from it through crates.txt and of the crates of this repository that it
# lists, the most ways first. An edge that no text needs makes crates wait for each other, and shows here: it costs a way for each
# that leads to it. (Releases of the toolchain before rattle-kit-13f also sum up a library's files once for each way.)
set -e
cd "$(dirname "$0")/.."
awk '
  /^[^#]/ { name = $1; sub(/:.*/, "", name); below = $0; sub(/^[^:]*:/, "", below); lists[name] = below }
  function ways(name,   found, last, i, list) {
    if (name in known) return known[name]
    last = split(lists[name], list, " ")
    for (i = 1; i <= last; i++) if (list[i] in lists) { found += 1 + ways(list[i]); listed[name]++ }
    return known[name] = found + 0
  }
  END { for (name in lists) printf "%-16s %6d ways down, lists %2d\n", name, ways(name), listed[name] }
' crates.txt | sort -k2,2nr -k1,1
