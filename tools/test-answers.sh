#!/usr/bin/env bash
# Shows that whoever types a script, or feeds it slowly, sees the answer to a line before the next one is read, and that
# all answers together are those of the same script in a file; the same of a live script. Each wait has an end.
# usage: [PROGRAM=FILE] [LIVE=FILE] tools/test-answers.sh
set -u
cd "$(dirname "$0")/.." || exit 1
program=${PROGRAM:-crates/kmemleak/out/kmemleak}
live=${LIVE:-crates/kmlive/out/kmlive}
patience=20
room=$(mktemp -d)
trap 'rm -rf "$room"' EXIT
passed=0
failed=0

# Compares what was seen with what should be.
row() {
  if [ "$2" = "$3" ]; then
    passed=$((passed + 1))
  else
    failed=$((failed + 1))
    echo "answers: $1: '$3' in place of '$2'"
  fi
}

# Feeds a script to a program through a pipe, and waits for the answer to each line but the first, which has none.
feed_slowly() {
  local reader=$1 number answer
  coproc fed { exec "$reader"; }
  local process=$fed_PID output=${fed[0]} input=${fed[1]}
  printf 'memory 512\n' >&"$input"
  for number in 1 2 3; do
    printf 'print %s\n' "$number" >&"$input"
    IFS= read -r -t "$patience" answer <&"$output" || answer='no answer'
    printf '%s\n' "$answer"
  done
  # Half a line is no line yet.
  printf 'print ' >&"$input"
  printf '4\n' >&"$input"
  IFS= read -r -t "$patience" answer <&"$output" || answer='no answer'
  printf '%s\n' "$answer"
  exec {input}>&-
  wait "$process"
  echo "status $?"
}

printf 'memory 512\nprint 1\nprint 2\nprint 3\nprint 4\n' >"$room/script"
whole=$("$program" <"$room/script"; echo "status $?")
row 'a script in a file' "$(printf '0x%016x\n' 1 2 3 4; echo 'status 0')" "$whole"
row 'the same by a slow pipe' "$whole" "$(feed_slowly "$program")"
row 'a live script by a slow pipe' "$whole" "$(feed_slowly "$live")"

# A line that ends the script, and a fault of the writer that a flush before a read meets first.
row 'a line that is no command' "$(printf '0x%016x\n' 1; echo 'not a command: line 3, column 1'; echo 'status 1')" \
  "$( (printf 'memory 512\nprint 1\n'; sleep 0.2; printf 'prnt 2\nprint 3\n') | "$program"; echo "status $?")"
row 'a full device' 'status 3' \
  "$( (printf 'memory 512\nprint 1\n'; sleep 0.2; printf 'print 2\n') | "$program" 2>"$room/error" >/dev/full; echo "status $?")"
row 'its message' 'kmemleak: write fault' "$(cat "$room/error")"

if command -v python3 >/dev/null; then
  row 'a terminal' "$(printf '0x%016x\n' 1 2; echo 'status 0')" "$(timeout $((3 * patience)) python3 tools/type_script.py "$program" "$patience" 2>&1)"
else
  echo "answers: there is no python3, so a terminal isn't tried"
fi
echo "answers: $passed passed, $failed failed"
[ "$failed" -eq 0 ]
