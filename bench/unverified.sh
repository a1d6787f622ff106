#!/usr/bin/env bash
# The indexed queue over heaps beside an unverified queue in plain Rust, on the same loads, in turn:
# checksums, and the nanoseconds of a pull and of an add. It needs rustc. Build dmc_bench first:
# cd crates/dmc_bench && rt run -- heap 10 100
set -eu
cd "$(dirname "$0")/.."
bench=crates/dmc_bench/out/dmc_bench
folder=$(mktemp -d)
trap 'rm -rf "$folder"' EXIT
rustc -O -o "$folder/unverified" bench/unverified.rs
run() {
  name=$1
  shift
  "$@" 2>&1 | awk -v l="$name" 'NF == 1 { sum = $1 } $1 == "pull" { pull = $3 / $2 } $1 == "add" { add = $3 / $2 }
    END { printf "%-20s pull %8.1f ns  add %8.1f ns  checksum %s\n", l, pull, add, sum }'
}
for limit in "" 100; do
  for clients in 10 1000 65536; do
    for turn in 1 2 3; do
      run "unverified $clients $limit" "$folder/unverified" "$clients" 1000000 $limit
      run "heap $clients $limit" "$bench" heap "$clients" 1000000 $limit
    done
  done
done
