#!/usr/bin/env bash
# What a client gets of a limit of 300 requests a second if it asks for more and gives each up after a second, in simulated time: the
# table of bench/README.md. It needs c/out/libdmclock.a (make c).
set -eu
cd "$(dirname "$0")/.."
program=$(mktemp)
trap 'rm -f "$program"' EXIT
"${CC:-cc}" -std=gnu11 -O2 -Wall -Wextra -Werror -Ic -o "$program" bench/patience.c c/out/libdmclock.a
for asked in 250 600 1500; do "$program" "$asked"; done
