#!/usr/bin/env bash
# Prints how many million words a second the scanner of a round loads, alone and beside one and four threads that zero
# blocks all the while, and how many million words a second each of these stores, on average: the best of five by the
# clock, or of as many as the first argument says. The round ends when its journal is full, and the time of one that is
# full at once is taken off.
# PROGRAM names another build of `kmlive`; else that of this repository is built where it isn't there yet.
set -eu
cd "$(dirname "$0")/.."
program=${PROGRAM:-crates/kmlive/out/kmlive}
rounds=${1:-5}
if [ ! -x "$program" ]; then
  echo "bench: proving and building kmlive first, which takes many minutes" >&2
  (cd crates/kmlive && rt run </dev/null >/dev/null)
fi
work=$(mktemp -d)
trap 'rm -rf "$work"' EXIT

# best THREADS ENTRIES: the least time in nanoseconds, and how many blocks all threads had zeroed then
best() {
  local least="" blocks=0 before after
  awk -v threads="$1" -v entries="$2" -f bench/rounds.awk >"$work/script"
  for _ in $(seq "$rounds"); do
    before=$(date +%s%N)
    "$program" <"$work/script" >"$work/report"
    after=$(date +%s%N)
    if [ -z "$least" ] || [ $((after - before)) -lt "$least" ]; then
      least=$((after - before))
      blocks=$(($(sed -n 's/^0x/+ 0x/p' "$work/report" | tr '\n' ' ')))
      if grep -q '^0x0*333$' "$work/report"; then
        echo "bench: a thread had no more lines before the journal was full" >&2
      fi
    fi
  done
  echo "$least $blocks"
}

for threads in 0 1 4; do
  entries=$((threads == 0 ? 2000000 : 100000))
  read -r least blocks <<<"$(best "$threads" "$entries")"
  read -r empty _ <<<"$(best "$threads" 1)"
  awk -v threads="$threads" -v entries="$entries" -v blocks="$blocks" -v ns=$((least - empty)) 'BEGIN {
    printf "beside %d threads: %.1f million loads a second", threads, (entries - 2 * blocks) * 1000 / ns
    if (threads) printf ", %.1f million stores a second by each thread", blocks * 4097 * 1000 / threads / ns
    print ""
  }'
done
