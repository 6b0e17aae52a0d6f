#!/bin/sh
# Prints how many checks may run side by side: one a processor, where there is memory for so many of the largest, of 4.5 GB. The
# toolchain's own estimate is up to three times that, so that the longest chain of crates would wait for room that nothing takes.
fitting=$(awk '/^MemAvailable:/ { print int($2 / 5242880) }' /proc/meminfo)
processors=$(nproc)
jobs=$((fitting < processors ? fitting : processors))
echo $((jobs > 1 ? jobs : 1))
