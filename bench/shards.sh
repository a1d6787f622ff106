#!/usr/bin/env bash
# Two tables of bench/README.md of a server of shards. First what clients get whose requests are spread unevenly over them, in simulated
# time; it needs c/out/libdmclock.a (make c). Then requests a second of 1, 2 and 4 threads at one shard, of 2 at 2 and of 4 at 4, beside
# as many queues in C++ in the design of Ceph's library, each behind a std::mutex: the median of nine runs in turn, with the least and
# the greatest. Build dmc_bench first: cd crates/dmc_bench && rt run -- heap 10 100
set -eu
cd "$(dirname "$0")/.."
bench=crates/dmc_bench/out/dmc_bench
folder=$(mktemp -d)
trap 'rm -rf "$folder"' EXIT
"${CC:-cc}" -std=gnu11 -O2 -Wall -Wextra -Werror -Ic -o "$folder/shares" bench/shards.c c/out/libdmclock.a
"${CXX:-c++}" -std=c++17 -O2 -Wall -Wextra -Werror -pthread -o "$folder/threads" bench/shard_threads.cc
"$folder/shares"
requests=400000
# millions of requests a second, of what a program writes
rate() { "$@" 2>&1 > /dev/null | awk '$1 == "request" { printf "%.2f", $2 / $3 * 1000 }'; }
for turn in 1 2 3 4 5 6 7 8 9; do
  for row in "1 1" "2 1" "4 1" "2 2" "4 4"; do
    read -r threads shards <<< "$row"
    echo "$threads $shards $(rate "$bench" shards "$threads" $requests "$shards") $(rate "$folder/threads" "$threads" "$shards" $requests)"
  done
done > "$folder/rates"
# the median of nine numbers, with the least and the greatest
middle() { sort -g | awk '{ rate[NR] = $1 } END { printf "%.2f (%.2f to %.2f)", rate[5], rate[1], rate[NR] }'; }
for row in "1 1" "2 1" "4 1" "2 2" "4 4"; do
  read -r threads shards <<< "$row"
  of_row() { awk -v t="$threads" -v s="$shards" -v c="$1" '$1 == t && $2 == s { print $c }' "$folder/rates"; }
  echo "$threads threads, $shards shards: $(of_row 3 | middle) million requests a second, in C++ $(of_row 4 | middle)"
done
