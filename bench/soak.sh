#!/usr/bin/env bash
# A soak of crates/example_server: bench/soak.sh EVENTS. Four clients make requests of a server whose queue is behind a lock,
# two of them come during the first tenth, and an auditor releases what was recorded every 65,536 events, replays it and drops
# it. bench/soak.sh EVENTS example_shards is one of crates/example_shards, with four shards and two workers at each. Every ten
# seconds (of up to 200,000,000 events at each release) it prints the events, the events a second and the resident memory; at the
# end the greatest. How far the threads are apart when events are released changes from one release to the next,
# and the memory with it; so what is compared is the least in the last tenth with the greatest in the first (and the first eight
# reports). Status 1: a segment does not replay, the program fails, or that grew by more than 5% and by more than 4,096 kB,
# which is about what the events of one release take. All threads allocate in one arena, where what one frees serves the others.
# It builds the program if that is not there: cd crates/example_server && rt run
set -eu
cd "$(dirname "$0")/.."
events=$1
name=${2:-example_server}
program=crates/$name/out/$name
[ -x "$program" ] || (cd "crates/$name" && rt run > /dev/null)
pause=10000
[ "$events" -gt 200000000 ] || pause=1
folder=$(mktemp -d)
trap 'rm -rf "$folder"' EXIT
mkfifo "$folder/reports"
export GLIBC_TUNABLES=glibc.malloc.arena_max=1
start=$(date +%s%N)
# each client makes an eighth of the events: a request is two
"$program" $((events / 8)) "$pause" > "$folder/out" 2> "$folder/reports" &
process=$!
first=0 last=0 greatest=0 reports=0
while read -r count word; do
  if [ "$word" != events ]; then
    echo "soak: $count $word" >&2
    continue
  fi
  # VmRSS:  12345 kB, as long as the program runs
  resident=
  while read -r name size _; do
    [ "$name" != VmRSS: ] || resident=$size
  done 2> "$folder/gone" < "/proc/$process/status" || continue
  [ -n "$resident" ] || continue
  [ "$resident" -le "$greatest" ] || greatest=$resident
  reports=$((reports + 1))
  [ "$reports" -gt 8 ] && [ "$count" -gt $((events / 10)) ] || first=$greatest
  if [ "$count" -ge $((events - events / 10)) ]; then
    [ "$last" -gt 0 ] && [ "$resident" -ge "$last" ] || last=$resident
  fi
  echo "$count events, $((count * 1000 / (($(date +%s%N) - start) / 1000000 + 1))) a second, $resident kB"
done < "$folder/reports"
if ! wait "$process"; then
  echo "soak: the server failed" >&2
  exit 1
fi
cat "$folder/out"
echo "at most $greatest kB; at most $first kB in the first tenth, and at least $last kB in the last"
grown=$((last - first))
if [ "$grown" -gt $((first / 20)) ] && [ "$grown" -gt 4096 ]; then
  echo "soak: memory grew after the first tenth" >&2
  exit 1
fi
