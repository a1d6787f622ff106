#!/usr/bin/env bash
# What clients get by weight with shares by the clock and in virtual time, in simulated time, and what an add of a client costs that
# comes back: the tables of bench/README.md. It needs c/out/libdmclock.a (make c).
set -eu
cd "$(dirname "$0")/.."
folder=$(mktemp -d)
trap 'rm -rf "$folder"' EXIT
for program in shares returns; do
  "${CC:-cc}" -std=gnu11 -O2 -Wall -Wextra -Werror -Ic -o "$folder/$program" "bench/$program.c" c/out/libdmclock.a
done
"$folder/shares"
echo "| clients | by the clock | in virtual time |"
echo "|---|---|---|"
for clients in 1000 10000 65536; do "$folder/returns" $clients; done
