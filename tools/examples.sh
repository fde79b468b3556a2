#!/usr/bin/env bash
# Runs each examples/NAME.km by kmemleak, each examples/NAME.live by kmlive and each examples/NAME.journal by kmcheck, as
# they were built, and compares the report with examples/NAME.report and the exit status with the number in
# examples/NAME.status, or with 0 where there is no such file.
set -eu
cd "$(dirname "$0")/.."
work=$(mktemp -d)
trap 'rm -rf "$work"' EXIT
failed=0
passed=0

# build NAME: builds the program, unless it was built
build() {
  if [ ! -x "crates/$1/out/$1" ]; then
    echo "examples: building crates/$1; where nothing is kept this proves all its libraries first, which can take an hour" >&2
    if ! (cd "crates/$1" && rt run </dev/null >"$work/log" 2>&1); then
      cat "$work/log" >&2
      exit 1
    fi
  fi
}

# compare NAME INPUT: runs the program on the input, and compares what it gives with what stands beside the input
compare() {
  local name=${2%.*} wanted=0 status=0
  if [ -f "$name.status" ]; then
    wanted=$(<"$name.status")
  fi
  timeout 10 "crates/$1/out/$1" <"$2" >"$work/report" 2>/dev/null || status=$?
  if ! cmp -s "$work/report" "$name.report"; then
    failed=$((failed + 1))
    echo "examples: $2 does not give $name.report"
  elif [ "$status" != "$wanted" ]; then
    failed=$((failed + 1))
    echo "examples: $2 ends with $status in place of $wanted"
  else
    passed=$((passed + 1))
  fi
}

build kmemleak
build kmlive
build kmcheck
for script in examples/*.km; do
  compare kmemleak "$script"
done
for script in examples/*.live; do
  compare kmlive "$script"
done
for journal in examples/*.journal; do
  compare kmcheck "$journal"
done
echo "examples: $passed passed, $failed failed"
[ "$failed" -eq 0 ]
