#!/usr/bin/env bash
# Prints how many million steps a second threads make on shared words, beside the same by the atomic words of std in
# plain Rust (`bench/atomics.rs`, built by rustc -O where there is one), and how many times a second tokens take the
# book, make an act and give it back. The best of five.
# BENCH names another build of `km_live_bench`; else that of this repository is built where it isn't there yet.
set -eu
cd "$(dirname "$0")/.."
bench=${BENCH:-crates/km_live_bench/out/km_live_bench}
if [ ! -x "$bench" ]; then
  echo "bench: proving and building km_live_bench first, which takes many minutes" >&2
  (cd crates/km_live_bench && rt run -- book 1 act </dev/null >/dev/null)
fi
plain=$(mktemp)
trap 'rm -f "$plain"' EXIT
if command -v rustc >/dev/null; then rustc -O -o "$plain" bench/atomics.rs; else plain=; fi
# The best time of five, in nanoseconds, and then what the last one counted.
best() {
  local least="" counted="" before after
  for _ in 1 2 3 4 5; do
    before=$(date +%s%N)
    counted=$("$@" | cut -d' ' -f1)
    after=$(date +%s%N)
    if [ -z "$least" ] || [ $((after - before)) -lt "$least" ]; then least=$((after - before)); fi
  done
  echo "$least $counted"
}
for words in "words 1 own" "words 4 own" "words 4 one"; do
  # shellcheck disable=SC2086
  read -r time counted <<<"$(best "$bench" $words)"
  line="$words: $((counted * 1000 / time)) million steps a second"
  if [ -n "$plain" ]; then
    # shellcheck disable=SC2086
    read -r other steps <<<"$(best "$plain" $words)"
    line="$line, in plain Rust $((steps * 1000 / other)), $((time * 100 / other)) % of its time"
  fi
  echo "$line"
done
for words in "book 1 act" "book 2 act"; do
  # shellcheck disable=SC2086
  read -r time counted <<<"$(best "$bench" $words)"
  echo "$words: $((counted * 1000000 / time)) thousand times a second taken, acted and given, $((time / counted)) ns each"
done
