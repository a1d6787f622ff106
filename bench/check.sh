#!/usr/bin/env bash
# Runs each load of dmc_bench once, for a moment: whether it ends well, and whether loads that make the same calls write the same
# checksum. It measures nothing. The gate builds dmc_bench.
set -eu
cd "$(dirname "$0")/.."
bench=crates/dmc_bench/out/dmc_bench
run() { "$bench" "$@" 2> /dev/null || echo "failed: $*"; }
# same WORDS LOAD..: the loads with these words
same() {
  local words=$1 wanted load
  # shellcheck disable=SC2086
  wanted=$(run "$2" $words)
  for load in "${@:2}"; do
    # shellcheck disable=SC2086
    [[ $(run "$load" $words) == "$wanted" && $wanted =~ ^[0-9]+$ ]] || { echo "FAILED: dmc_bench $load $words, beside $2" >&2; exit 1; }
  done
  echo "ok ${*:2}"
}
for words in "10 400" "40 4000" "10 400 10" "40 4000 100"; do same "$words" plain list heap ratio-heap; done
for words in "10 400" "40 4000"; do same "$words" alone locked warm rotated; done
same "4 400" list-index heap-index
for load in deep shared; do same "4 400" "$load"; done
same "4 400 2" shards
for load in ticks ratios; do same "0 1000" "$load"; done
