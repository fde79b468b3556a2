#!/usr/bin/env bash
# Prints how fast the program reads: megabytes a second over 64 MiB of line feeds, and of comments,
# and how many million lines of a generated script are parsed a second; how long the tracker takes to
# register and find blocks, with the memory that is resident; the slab host's calls; and two scans of the
# largest memory.
# PROGRAM and BENCH name other builds of `kmemleak` and of `km_bench`; else those of this repository are built where
# they aren't there yet.
set -eu
cd "$(dirname "$0")/.."
program=${PROGRAM:-crates/kmemleak/out/kmemleak}
bench=${BENCH:-crates/km_bench/out/km_bench}
if [ ! -x "$program" ]; then
  echo "bench: proving and building kmemleak first, which takes many minutes" >&2
  (cd crates/kmemleak && rt run </dev/null >/dev/null)
fi
if [ ! -x "$bench" ]; then
  echo "bench: proving and building km_bench first, which takes some minutes" >&2
  (cd crates/km_bench && rt run -- track </dev/null >/dev/null)
fi
bytes=67108864
script=$(mktemp)
trap 'rm -f "$script"' EXIT
measure() {
  yes "$2" 2>/dev/null | head -c "$bytes" >"$script"
  local before after
  before=$(date +%s%N)
  "$program" <"$script"
  after=$(date +%s%N)
  echo "$1: $((bytes * 1000 / (after - before))) MB/s"
}
measure "line feeds" ""
measure "comments" "# a comment of sixty bytes, as they stand in many scripts ..."
before=$(date +%s%N)
lines=$("$bench" lines | cut -d' ' -f1)
after=$(date +%s%N)
rate=$((lines * 10000 / (after - before)))
echo "lines of a generated script, made once and read twenty times: $((rate / 10)).$((rate % 10)) million a second"
for blocks in 10 100000 1000000 4194304; do
  /usr/bin/time -f "in the largest memory, registered and found in %e s, %M KB resident" "$bench" track "$blocks" 2>&1 | paste -sd' '
done
for blocks in 100000 500000; do
  /usr/bin/time -f "of kmalloc and kfree with up to $blocks live blocks in %e s" "$bench" slab "$blocks" 2>&1 | paste -sd' '
done
for kind in zeros chain large; do
  /usr/bin/time -f "of two scans, $kind, in %e s, %M KB resident" "$bench" core "$kind" 2>&1 | paste -sd' '
done
