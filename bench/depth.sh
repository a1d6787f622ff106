#!/usr/bin/env bash
# Instructions of a pull and an add, of one client with this many requests queued (callgrind). Build
# dmc_bench first: cd crates/dmc_bench && rt run -- heap 10 100
set -eu
cd "$(dirname "$0")/.."
count() {
  valgrind --tool=callgrind --callgrind-out-file=/dev/null \
    crates/dmc_bench/out/dmc_bench deep "$1" "$2" 2>&1 | awk '/Collected/ { print $4 }'
}
for depth in 1 2 10 100 10000; do
  fewer=$(count "$depth" 20000)
  more=$(count "$depth" 60000)
  echo "depth $depth: $(((more - fewer) / 40000)) instructions a turn"
done
