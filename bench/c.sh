#!/usr/bin/env bash
# The load `heap` of dmc_bench from C, beside the same calls from Rattle: the median ratio of the processor time of nine runs in
# turn, and the ratio of instructions by callgrind. Build both first: make c, and
# cd crates/dmc_bench && rt run -- heap 10 100
set -eu
cd "$(dirname "$0")/.."
bench=crates/dmc_bench/out/dmc_bench
folder=$(mktemp -d)
trap 'rm -rf "$folder"' EXIT
"${CC:-cc}" -std=gnu11 -O2 -Wall -Wextra -Werror -Ic -o "$folder/calls" bench/calls.c c/out/libdmclock.a
TIMEFORMAT=%U
# seconds of the processor; the checksum goes to the file sum
seconds() { { time "$@" > "$folder/sum" 2> /dev/null; } 2>&1; }
instructions() {
  valgrind --tool=callgrind --callgrind-out-file=/dev/null "$@" 2>&1 > /dev/null | awk '/Collected/ { print $4 }'
}
for clients in 10 1000 65536; do
  for turn in 1 2 3 4 5 6 7 8 9; do
    rattle=$(seconds "$bench" heap "$clients" 2000000)
    cp "$folder/sum" "$folder/rattle"
    c=$(seconds "$folder/calls" "$clients" 2000000)
    cmp "$folder/sum" "$folder/rattle"
    echo "$rattle $c"
  done | awk '{ print $2 / $1 }' | sort -n | awk -v n="$clients" '{ a[NR] = $1 }
    END { printf "%6d clients: time %.2f (%.2f to %.2f)", n, a[5], a[1], a[9] }'
  few=10000
  many=60000
  if [ "$clients" -gt 1000 ]; then few=$clients many=$((4 * clients)); fi
  rattle=$(($(instructions "$bench" heap "$clients" $many) - $(instructions "$bench" heap "$clients" $few)))
  c=$(($(instructions "$folder/calls" "$clients" $many) - $(instructions "$folder/calls" "$clients" $few)))
  awk -v r="$rattle" -v c="$c" 'BEGIN { printf ", instructions %.2f\n", c / r }'
done
