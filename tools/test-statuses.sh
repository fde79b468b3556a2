#!/usr/bin/env bash
# Shows the exit statuses of kmemleak and of kmlive in each case, and their lines on standard error. The status is that of
# the run whatever becomes of this line: it is the same where standard error is closed or full.
# usage: [PROGRAM=FILE] [LIVE=FILE] tools/test-statuses.sh
set -u
cd "$(dirname "$0")/.." || exit 1
program=${PROGRAM:-crates/kmemleak/out/kmemleak}
live=${LIVE:-crates/kmlive/out/kmlive}
room=$(mktemp -d)
trap 'rm -rf "$room"' EXIT
passed=0
failed=0

# Runs a shell command, in which $program is kmemleak and $live is kmlive, and compares its status and what it wrote to
# standard error.
row() {
  local status=$1 line=$2 command=$3 seen ended
  seen=$(eval "$command" 2>&1 >"$room/out")
  ended=$?
  if [ "$ended" -eq "$status" ] && [ "$seen" = "$line" ]; then
    passed=$((passed + 1))
  else
    failed=$((failed + 1))
    echo "statuses: $command: status $ended and '$seen' in place of $status and '$line'"
  fi
}

printf 'memory 512\nprint 1\n' >"$room/good"
printf 'memory 512\nkmaloc 8\n' >"$room/wrong"
yes "#$(printf '%250s' '')" 2>/dev/null | head -c 67108865 >"$room/long"
printf 'memory 4194304\n' >"$room/large"
printf 'memory 1024\ntask a\nthread a\nstore a.stack 1\nend\nround 1 0 2\n' >"$room/round"
printf 'memory 1024\ntask a\nthread a\nstore a.stack 1\n' >"$room/open"
printf 'memory 512\nthread a\ntick 1\nend\n' >"$room/tick"
printf 'memory 512\nround 1 0 4194304\n' >"$room/journal"

row 0 '' '$program <$room/good'
row 0 '' '$program </dev/null'
row 0 '' '$program check <$room/good'
row 0 '' '$program bench 1 0'
row 1 '' '$program <$room/wrong'
row 1 '' '$program check <$room/wrong'
row 2 'kmemleak: read fault' '$program <.'
row 2 'kmemleak: read fault' '$program check <.'
row 3 'kmemleak: write fault' '$program <$room/good >/dev/full'
row 3 'kmemleak: write fault' '$program bench 1 0 >/dev/full'
row 5 'kmemleak: bad words' '$program foo'
row 5 'kmemleak: bad words' '$program check foo'
row 5 'kmemleak: bad words' '$program bench 1'
row 5 'kmemleak: bad words' '$program bench x 1'
row 5 'kmemleak: bad words' '$program --help'
row 5 'kmemleak: bad words' "\$program \$'\\xff'"
row 6 'kmemleak: input too long' '$program <$room/long'
row 6 'kmemleak: input too long' '$program check <$room/long'
# Where so little memory is enough for the program to start, the largest memory isn't found in it.
if { (ulimit -v 200000 && exec "$program" <"$room/good" >"$room/out" 2>&1); } 2>/dev/null; then
  row 4 'kmemleak: no memory' '(ulimit -v 200000 && exec $program <$room/large)'
else
  echo "statuses: this build needs more than 200 MB to start, so want of memory isn't tried"
fi
# The same of kmlive, which takes no word.
row 0 '' '$live <$room/good'
row 0 '' '$live </dev/null'
row 0 '' '$live <$room/round'
row 1 '' '$live <$room/wrong'
row 1 '' '$live <$room/open'
row 1 '' '$live <$room/tick'
row 1 '' '$program <$room/round'
row 2 'kmlive: read fault' '$live <.'
row 3 'kmlive: write fault' '$live <$room/good >/dev/full'
row 3 'kmlive: write fault' '$live <$room/round >/dev/full'
row 5 'kmlive: bad words' '$live foo'
row 5 'kmlive: bad words' '$live check <$room/good'
row 5 'kmlive: bad words' '$live ""'
row 5 'kmlive: bad words' "\$live \$'\\xff'"
row 6 'kmlive: input too long' '$live <$room/long'
# Neither the largest memory nor the largest journal is found in so little memory.
if { (ulimit -v 200000 && exec "$live" <"$room/round" >"$room/out" 2>&1); } 2>/dev/null; then
  row 4 'kmlive: no memory' '(ulimit -v 200000 && exec $live <$room/large)'
  row 4 'kmlive: no memory' '(ulimit -v 200000 && exec $live <$room/journal)'
else
  echo "statuses: this build needs more than 200 MB to start, so want of memory isn't tried"
fi
# A message that can't be written changes no status.
for lost in '2>&-' '2>/dev/full'; do
  row 2 '' "\$program <. $lost"
  row 3 '' "\$program <\$room/good >/dev/full $lost"
  row 5 '' "\$program foo $lost"
  row 2 '' "\$live <. $lost"
  row 3 '' "\$live <\$room/good >/dev/full $lost"
  row 5 '' "\$live foo $lost"
done
row 6 '' '$program <$room/long 2>/dev/full'
echo "statuses: $passed passed, $failed failed"
[ "$failed" -eq 0 ]
