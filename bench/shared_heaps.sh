#!/usr/bin/env bash
# A pull and an add of the load of bench/calls.c through C, beside a queue in C++ in the design of Ceph's library
# (bench/shared_heaps.cc), without limits, with limits of 10 a second, which is the reservation too, and with limits of 100:
#   bench/shared_heaps.sh counts  instructions, and misses of a first cache of 32 kB and of a last one of 1 MB, by cachegrind, as the
#                                 difference of runs of two lengths; other work on the machine does not change them
#   bench/shared_heaps.sh times   the median ratio of the nanoseconds of 15 runs in turn, with the quarters
#   bench/shared_heaps.sh memory  bytes that are allocated for a client with one request queued
# With a second word `ratio`, counts and times are of ratio tags beside tick tags, in dmc_bench. Build the library first: make c, or:
# cd crates/dmc_bench && rt run -- heap 10 100
set -eu
cd "$(dirname "$0")/.."
folder=$(mktemp -d)
trap 'rm -rf "$folder"' EXIT
if [ "${2:-}" = ratio ]; then
  bench=crates/dmc_bench/out/dmc_bench
  measured=("$bench" ratio-heap) other=("$bench" heap) name="tick tags"
else
  "${CC:-cc}" -std=gnu11 -O2 -Wall -Wextra -Werror -Ic -o "$folder/c" bench/calls.c c/out/libdmclock.a
  "${CXX:-c++}" -std=c++17 -O2 -Wall -Wextra -Werror -o "$folder/cc" bench/shared_heaps.cc
  measured=("$folder/c") other=("$folder/cc") name="C++"
fi
# nanoseconds of a pull and an add
nanos() { "$@" 2>&1 > /dev/null | awk '$1 == "pull" || $1 == "add" { sum += $3 / $2 } END { print sum }'; }
# instructions of a run, and its misses of the first cache and of the last
counts_of() {
  valgrind --tool=cachegrind --cache-sim=yes --I1=32768,8,64 --D1=32768,8,64 --LL=1048576,16,64 --cachegrind-out-file=/dev/null "$@" \
    2>&1 > /dev/null | awk '{ gsub(",", "") } / I +refs/ { i = $4 } / D1 +misses/ { d = $4 } / LLd misses/ { l = $4 } END { print i, d, l }'
}
# the same of a pull and an add: CLIENTS LIMIT PROGRAM..
each() {
  local clients=$1 limit=$2 few=10000 many=60000
  if [ "$clients" -gt 1000 ]; then few=$clients many=$((3 * clients)); fi
  # shellcheck disable=SC2086
  echo "$(counts_of "${@:3}" "$clients" $few $limit) $(counts_of "${@:3}" "$clients" $many $limit)" |
    awk -v n=$((many - few)) '{ printf "%d instructions, %.1f and %.1f misses", ($4 - $1) / n, ($5 - $2) / n, ($6 - $3) / n }'
}
count() { echo "$(each "$1" "$2" "${measured[@]}"); $name $(each "$1" "$2" "${other[@]}")"; }
time_in_turn() {
  for turn in 1 2 3 4 5 6 7 8 9 10 11 12 13 14 15; do
    # shellcheck disable=SC2086
    echo "$(nanos "${measured[@]}" "$1" 400000 $2) $(nanos "${other[@]}" "$1" 400000 $2)"
  done | awk '{ print $1 / $2, $1, $2 }' | sort -n | awk '
    { ratio[NR] = $1; c[NR] = $2; cc[NR] = $3 }
    END { printf "time %.2f (%.2f to %.2f), about %.0f ns to %.0f\n", ratio[8], ratio[4], ratio[12], c[8], cc[8] }'
}
# the bytes of a client, as the difference of two runs. The numbers are powers of two, at which tables that grow by doubling are full
bytes() {
  for clients in 1024 65536; do
    "$@" "$clients" 1 2>&1 > /dev/null | awk '$1 == "memory" { print $2, $3 }'
  done | awk 'NR == 1 { clients = $1; bytes = $2 } NR == 2 { printf "%d", ($2 - bytes) / ($1 - clients) }'
}
if [ "${1:-times}" = memory ]; then
  echo "a client with one request queued: $(bytes "${measured[@]}") bytes, $name $(bytes "${other[@]}")"
  exit
fi
for limit in "" 10 100; do
  for clients in 2 10 100 1000 10000 65536; do
    printf "limit %s, %d clients: " "${limit:-none}" "$clients"
    if [ "${1:-times}" = counts ]; then count "$clients" "$limit"; else time_in_turn "$clients" "$limit"; fi
  done
done
