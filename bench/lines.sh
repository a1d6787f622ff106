#!/usr/bin/env bash
# A script of 1,000,000 lines through the proved program, beside a plain copy of the same bytes. Prints both times.
set -eu
cd "$(dirname "$0")/.."
lines=${1:-1000000}
text=$(mktemp)
trap 'rm -f "$text"' EXIT
awk -v n="$lines" 'BEGIN {
  print "hz 1000000"; print "client 1 10 1 - 0";
  for (i = 1; i < n / 2; i++) { printf "add 1 %d 1 1 %d\npull %d\n", i, i, i }
}' > "$text"
wc -lc "$text"
echo "copy:"; time cat < "$text" | cat > /dev/null
echo "script:"; time ./dmclock script < "$text" > /dev/null
