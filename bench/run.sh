#!/usr/bin/env bash
# `dmclock run` of a scene of a storage cluster's size beside a driver in plain Rust, in turn, with 1, 2 and 4 workers a server:
# the median seconds of each and the median ratio (with the quarters), grants a second, and seconds of processors (the kernel's
# among them). Then a run of 1,000,000 requests: the most memory that each took, beside the bytes of the library's histories.
# It needs rustc, GNU time, and the proved program: make. The number of turns can be given; without, it is 15.
set -eu
cd "$(dirname "$0")/.."
turns=${1:-15}
scene=examples/storage_cluster.toml
program=${DMCLOCK:-crates/dmc_cli/out/dmc_cli}
folder=$(mktemp -d)
trap 'rm -rf "$folder"' EXIT
rustc -O -o "$folder/unverified" bench/unverified_run.rs
# seconds, seconds of processors, seconds of the kernel, KB of memory: NAME SCENE PROGRAM..
measure() {
  local name=$1 scene=$2
  shift 2
  /usr/bin/time -q -f '%e %U %S %M' -o "$folder/time" "$@" < "$scene" > "$folder/$name.report" 2> /dev/null
  awk '{ print $1, $2 + $3, $3, $4 }' "$folder/time"
}
in_turn() {
  echo "$(measure library "$1" "$program" run) $(measure unverified "$1" "$folder/unverified")"
  cmp "$folder/library.report" "$folder/unverified.report"
}
# a quantile of a column of sums or ratios: EXPRESSION PART FILE
quantile() {
  awk "{ print $1 }" "$3" | sort -g | awk -v p="$2" '{ value[NR] = $1 } END { print value[1 + int(p * (NR - 1) + 0.5)] }'
}
median() { quantile "$1" 0.5 "$folder/times"; }
for workers in 1 2 4; do
  sed "s/^workers = .*/workers = $workers/" "$scene" > "$folder/scene"
  for _ in $(seq "$turns"); do in_turn "$folder/scene"; done > "$folder/times"
  grants=$(awk '/^total/ { print $5 }' "$folder/library.report")
  awk -v w="$workers" -v g="$grants" -v l="$(median '$1')" -v u="$(median '$5')" -v r="$(median '$1 / $5')" \
    -v low="$(quantile '$1 / $5' 0.25 "$folder/times")" -v high="$(quantile '$1 / $5' 0.75 "$folder/times")" \
    -v lp="$(median '$2')" -v lk="$(median '$3')" -v up="$(median '$6')" -v uk="$(median '$7')" 'BEGIN {
      printf "%d workers a server: library %.2f s, unverified %.2f s, ratio %.2f (%.2f to %.2f)\n", w, l, u, r, low, high
      printf "  grants a second: library %d, unverified %d\n", g / l, g / u
      printf "  seconds of processors: library %.2f (kernel %.2f), unverified %.2f (kernel %.2f)\n", lp, lk, up, uk }'
done
# Clients without limits: each pull grants, but for the last one of each worker. So a server's history has the clients'
# registrations, an add and a grant of each request, and a pull of each worker that found nothing; a tracker's has a stamp and a
# response of each.
servers=4 workers=2 clients=8 requests=125000
{
  printf '%s\n' 'hz = 1000000' 'tags = "tick"' "servers = $servers" "workers = $workers"
  printf '%s\n' 'step = 1' 'seed = 1' 'max_pulls = 1000000'
  for client in $(seq "$clients"); do
    printf '%s\n' '[[client]]' "id = $client" 'weight = 1' "requests = $requests" 'window = 64'
  done
} > "$folder/scene"
for _ in $(seq "$turns"); do in_turn "$folder/scene"; done > "$folder/times"
events=$((servers * clients + 2 * clients * requests + servers * workers))
entries=$((2 * clients * requests))
awk -v e="$events" -v n="$entries" -v l="$(median '$4')" -v u="$(median '$8')" -v r="$(median '$1 / $5')" 'BEGIN {
  # a request without a reservation takes 68 bytes, its grant 28, and any other event 116
  bytes = 96 * n / 2 + 116 * (e - n) + 16 * n
  library = l * 1024
  printf "1,000,000 requests: %d events of 28 to 116 bytes and %d entries of 16 bytes take %.0f MB\n", e, n, bytes / 1000000
  printf "  the most memory: library %.0f MB, %.2f times that", library / 1000000, library / bytes
  printf "; unverified %.0f MB\n", u * 1024 / 1000000
  printf "  time: ratio %.2f\n", r }'
