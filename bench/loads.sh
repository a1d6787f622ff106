#!/usr/bin/env bash
# Loads of dmc_bench: what one call of each part of a load takes. Build it first: cd crates/dmc_bench && rt run -- heap 10 100
set -eu
cd "$(dirname "$0")/.."
bench=crates/dmc_bench/out/dmc_bench
run() {
  "$bench" "$@" 2>&1 > /dev/null |
    awk -v l="$1 $2${4:+ limit $4}" '$2 > 0 { printf "%-22s %-9s %12.1f ns a call\n", l, $1, $3 / $2 }'
}
run ticks 0 10000000
run ratios 0 10000000
for keys in 10 1000 65536; do
  run list-index "$keys" 65536
  run heap-index "$keys" 1000000
done
for clients in 10 1000 65536; do
  run list "$clients" 65536
  run heap "$clients" 1000000
done
for depth in 1 100 10000; do
  run deep "$depth" 1000000
done
run plain 10 1000000
run plain 1000 10000
run plain 65536 2000
for clients in 10 1000 65536; do
  run heap "$clients" 1000000 100
done
