#!/usr/bin/env bash
# Prints how many megabytes of a journal kmcheck checks a second, over a million scanner steps: the best of five.
# PROGRAM names another build of `kmcheck`; else that of this repository is built where it isn't there yet.
set -eu
cd "$(dirname "$0")/.."
program=${PROGRAM:-crates/kmcheck/out/kmcheck}
if [ ! -x "$program" ]; then
  echo "bench: proving and building kmcheck first, which takes many minutes" >&2
  (cd crates/kmcheck && rt run </dev/null >/dev/null)
fi
journal=$(mktemp)
trap 'rm -f "$journal"' EXIT
awk -v scans=250 -f bench/journals.awk >"$journal"
least=
for _ in 1 2 3 4 5; do
  before=$(date +%s%N)
  "$program" <"$journal" >/dev/null
  after=$(date +%s%N)
  if [ -z "$least" ] || [ $((after - before)) -lt "$least" ]; then least=$((after - before)); fi
done
echo "journal: $(($(wc -c <"$journal") * 1000 / least)) MB/s"
