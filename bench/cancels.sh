#!/usr/bin/env bash
# A turn of a cancel and an add in its place, in instructions (callgrind): the table of bench/README.md. It needs
# c/out/libdmclock.a (make c).
set -eu
cd "$(dirname "$0")/.."
program=$(mktemp)
trap 'rm -f "$program"' EXIT
"${CC:-cc}" -std=gnu11 -O2 -Wall -Wextra -Werror -Ic -o "$program" bench/cancels.c c/out/libdmclock.a
instructions() {
  valgrind --tool=callgrind --callgrind-out-file=/dev/null "$program" "$@" 2>&1 | awk '/Collected/ { print $4 }'
}
turn() {
  local fewer more
  fewer=$(instructions "$@" "$rounds")
  more=$(instructions "$@" $((2 * rounds)))
  echo $(((more - fewer) / rounds))
}
for load in '1 10 400' '1 10000 40' '1000 1 4000' '1000 10 4000'; do
  read -r clients depth rounds <<< "$load"
  for form in all others; do
    echo "| $clients | $depth | $form | $(turn "$clients" "$depth" first "$form") | $(turn "$clients" "$depth" last "$form") |"
  done
done
