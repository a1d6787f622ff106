#!/usr/bin/env bash
# `dmclock sim` of a scene of a storage cluster's size beside the same simulation in plain Rust, in turn: whether the reports are
# equal, the instructions of each (where valgrind is there), and the median seconds of seven runs. It needs rustc, and the proved
# program: make.
set -eu
cd "$(dirname "$0")/.."
scene=${1:-examples/storage_cluster.toml}
program=crates/dmc_cli/out/dmc_cli
folder=$(mktemp -d)
trap 'rm -rf "$folder"' EXIT
rustc -O -o "$folder/unverified_sim" bench/unverified_sim.rs
"$program" sim < "$scene" > "$folder/library.out"
"$folder/unverified_sim" < "$scene" > "$folder/unverified.out"
cmp "$folder/library.out" "$folder/unverified.out" && echo "equal reports"
instructions() {
  valgrind --tool=callgrind --callgrind-out-file=/dev/null "$@" < "$scene" 2>&1 > /dev/null | awk '/Collected/ { print $4 }'
}
if command -v valgrind > /dev/null; then
  echo "instructions: library $(instructions "$program" sim), unverified $(instructions "$folder/unverified_sim")"
fi
seconds() {
  local start end
  start=$(date +%s.%N)
  "$@" < "$scene" > /dev/null
  end=$(date +%s.%N)
  awk -v s="$start" -v e="$end" 'BEGIN { printf "%.3f\n", e - s }'
}
for _ in 1 2 3 4 5 6 7; do
  seconds "$program" sim >> "$folder/library.times"
  seconds "$folder/unverified_sim" >> "$folder/unverified.times"
done
median() { sort -n "$1" | sed -n 4p; }
echo "seconds, median of seven: library $(median "$folder/library.times"), unverified $(median "$folder/unverified.times")"
