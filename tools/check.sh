#!/usr/bin/env bash
# Tests the exit statuses of kmemleak and kmlive, the answers while one types, and the tools, by the programs that were
# built; in less than a minute.
# usage: [PROGRAM=FILE] [LIVE=FILE] tools/check.sh
set -u
cd "$(dirname "$0")/.." || exit 1
program=${PROGRAM:-crates/kmemleak/out/kmemleak}
if [ ! -x "$program" ]; then
  echo "check: no program at $program; (cd crates/kmemleak && rt run) proves and builds it, or PROGRAM names one" >&2
  exit 1
fi
live=${LIVE:-crates/kmlive/out/kmlive}
if [ ! -x "$live" ]; then
  echo "check: no program at $live; (cd crates/kmlive && rt run) proves and builds it, or LIVE names one" >&2
  exit 1
fi
failed=0
for test in tools/test-statuses.sh tools/test-answers.sh tools/test-km.sh; do
  "$test" || failed=1
done
exit "$failed"
