#!/usr/bin/env bash
# A submit and a pull through a lock that no other thread takes, beside the same calls of the queue alone: the median ratio of the
# times of 51 short runs in turn (with the quarters), and instructions (callgrind). A new lock's history takes new pages; `warm` is
# the third lock of a process whose allocator keeps the pages of the first two. Then one lock shared by 1, 2, 4 and 8 threads:
# requests a second, the median of nine runs in turn. Build dmc_bench first: cd crates/dmc_bench && rt run -- heap 10 100
set -eu
cd "$(dirname "$0")/.."
bench=crates/dmc_bench/out/dmc_bench
folder=$(mktemp -d)
trap 'rm -rf "$folder"' EXIT
# nanoseconds of a submit and of a pull, those printed last; the checksum goes to the file sum
run() {
  "$bench" "$1" "$2" 20000 2>&1 > "$folder/sum" |
    awk '$1 == "submit" { submit = $3 / $2 } $1 == "pull" { pull = $3 / $2 } END { print submit, pull }'
}
# instructions of 40,000 more calls of a function: LOAD CLIENTS FUNCTION
instructions() {
  local rounds
  for rounds in 20000 60000; do
    valgrind --tool=callgrind --callgrind-out-file=/dev/null --toggle-collect="$3*" "$bench" "$1" "$2" "$rounds" 2>&1 > /dev/null |
      awk '/Collected/ { print $4 }'
  done | awk 'NR == 1 { few = $1 } NR == 2 { printf "%.0f", ($1 - few) / 40000 }'
}
for clients in 10 1000; do
  for turn in $(seq 51); do
    alone=$(run alone "$clients")
    cp "$folder/sum" "$folder/alone"
    locked=$(run locked "$clients")
    cmp "$folder/sum" "$folder/alone"
    warm=$(GLIBC_TUNABLES=glibc.malloc.mmap_threshold=4294967296:glibc.malloc.trim_threshold=4294967296 run warm "$clients")
    cmp "$folder/sum" "$folder/alone"
    echo "$alone $locked $warm"
  done > "$folder/times"
  for load in locked warm; do
    for part in submit pull both; do
      awk -v l="$load" -v p="$part" '{
        submit = l == "warm" ? $5 : $3
        pull = l == "warm" ? $6 : $4
        if (p == "submit") print $1, submit, submit / $1
        if (p == "pull") print $2, pull, pull / $2
        if (p == "both") print $1 + $2, submit + pull, (submit + pull) / ($1 + $2)
      }' "$folder/times" | sort -g -k3 | awk -v n="$clients" -v l="$load" -v p="$part" '{ alone[NR] = $1; locked[NR] = $2; ratio[NR] = $3 }
        END { printf "%5d clients, %-6s: alone %.0f ns, %s %.0f ns, ratio %.2f (%.2f to %.2f)\n", n, p, alone[26], l, locked[26], ratio[26], ratio[13], ratio[39] }'
    done
  done
  if command -v valgrind > /dev/null; then
    add=$(instructions alone "$clients" dmc_bench::locked::add_each)
    pull=$(instructions alone "$clients" dmc_bench::queues::pull_all)
    submit=$(instructions locked "$clients" dmc_bench::locked::submit_each)
    pulled=$(instructions locked "$clients" dmc_bench::locked::pull_each)
    awk -v n="$clients" -v a="$add" -v p="$pull" -v s="$submit" -v q="$pulled" 'BEGIN {
      printf "%5d clients, instructions: submit %d to %d, pull %d to %d, both %.2f\n", n, s, a, q, p, (s + q) / (a + p) }'
  fi
done
for turn in 1 2 3 4 5 6 7 8 9; do
  for threads in 1 2 4 8; do
    "$bench" shared "$threads" 200000 2>&1 > /dev/null | awk -v n="$threads" '$1 == "request" { printf "%d %.0f\n", n, $2 / $3 * 1000000000 }'
  done
done > "$folder/shared"
for threads in 1 2 4 8; do
  awk -v n="$threads" '$1 == n { print $2 }' "$folder/shared" | sort -n | awk -v n="$threads" '{ rate[NR] = $1 }
    END { printf "%d threads: %.0f requests a second (%.0f to %.0f)\n", n, rate[5], rate[1], rate[NR] }'
done
