#!/usr/bin/env bash
# Runs the five benchmark scripts by the program that was built, each once or as often as the first argument says, and
# prints for each the best time, the lines and the scanner's loads that this is a second, and the memory that was resident
# at most.
# The last column is the check sum of the report: a change of speed must not change it. Then the layers by themselves.
# PROGRAM names another build of `kmemleak`; else that of this repository is built where it isn't there yet.
set -eu
cd "$(dirname "$0")/.."
program=${PROGRAM:-crates/kmemleak/out/kmemleak}
rounds=${1:-3}
if [ ! -x "$program" ]; then
  echo "bench: proving and building kmemleak first, which takes many minutes" >&2
  (cd crates/kmemleak && rt run </dev/null >/dev/null)
fi
script=$(mktemp)
report=$(mktemp)
# The scanner's loads, where a script is mostly scans: roots and all words of the blocks, and once more each that is summed.
declare -A loads=([chain]=7208200 [tree]=6012825)
trap 'rm -f "$script" "$report" "$script.time"' EXIT
printf '%-8s %9s %12s %12s %9s  %s\n' script seconds 'M lines/s' 'M loads/s' MB report
for name in chain tree lines areas mixed; do
  awk -v name="$name" -f bench/scripts.awk >"$script"
  lines=$(wc -l <"$script")
  best=
  for _ in $(seq "$rounds"); do
    /usr/bin/time -f '%e %M' -o "$script.time" "$program" <"$script" >"$report"
    read -r seconds kilobytes < <(tail -n 1 "$script.time")
    if [ -z "$best" ] || awk "BEGIN { exit !($seconds < $best) }"; then
      best=$seconds
    fi
  done
  sum=$(cksum <"$report" | cut -d' ' -f1)
  awk -v n="$name" -v s="$best" -v l="$lines" -v d="${loads[$name]:-0}" -v k="$kilobytes" -v c="$sum" 'BEGIN {
    if (s == 0) s = 0.01
    printf "%-8s %9.2f %12.2f %12s %9.0f  %s\n", n, s, l / s / 1e6, d ? sprintf("%.1f", d / s / 1e6) : "-", k / 1000, c
  }'
done
echo
bench/layers.sh
