#!/usr/bin/env bash
# Tests tools/km by the program that was built: that it adds to a report only the lines of the blocks, that it names the
# rule that refuses a line, and how it ends.
# usage: [PROGRAM=FILE] tools/test-km.sh
set -u
cd "$(dirname "$0")/.." || exit 1
PROGRAM=${PROGRAM:-crates/kmemleak/out/kmemleak}
export PROGRAM
room=$(mktemp -d)
trap 'rm -rf "$room"' EXIT
passed=0
failed=0

# Compares what was seen with what is owed.
same() {
  if [ "$2" = "$3" ]; then
    passed=$((passed + 1))
  else
    failed=$((failed + 1))
    printf 'km: %s: got\n%s\nin place of\n%s\n' "$1" "$2" "$3"
  fi
}

# Each example: its report, but for the added lines, and its status.
for script in examples/*.km; do
  seen=$(tools/km "$script" 2>/dev/null; echo "status $?")
  status=0
  if [ -f "${script%.km}.status" ]; then
    status=$(<"${script%.km}.status")
  fi
  same "$script" "$(sed '/^  by /d' <<<"$seen")" "$(cat "${script%.km}.report"; echo "status $status")"
done

# The line that is added to a block.
by() {
  same "the lines of the blocks of $1" "$(tools/km "$1" | grep '^  by ')" "$2"
}
by examples/first-leak.km '  by line 5: kmalloc 32 t.r1'
by examples/vmalloc.km '  by line 5: vmalloc 4096 t.r0'
by examples/lost-chain.km '  by line 4: kmalloc 64
  by line 5: kmalloc 64'
by examples/free-in-mid-scan.km '  by line 7: kmalloc 64 t.r2'
printf '  memory 4096 \r\n\n# a comment\nprint 1\nprint 4\nprint 5\n\tvmalloc 8\r\nerase 0xffff888000000000\ntick 1000\nwrite scan\nwrite scan\nread' >"$room/head.km"
by "$room/head.km" '  by a vmalloc, whose head it is
  by line 7: vmalloc 8'
same 'a report with marks of its own' "$(tools/km "$room/head.km" | sed '/^  by /d')" "$("$PROGRAM" <"$room/head.km")"

# A line that is no command: what standard error says, but for the forms of its words.
wrong() {
  printf '%b' "$1" >"$room/wrong.km"
  same "check of $1" "$(tools/km check "$room/wrong.km" 2>&1 >/dev/null | grep -v '^    [A-Z]*:' | sed "s|$room/||")" "$2"
  same "the status of $1" "$(tools/km "$room/wrong.km" >/dev/null 2>&1; echo $?)" 1
}
wrong 'memory 4096\nkmaloc 64\n' 'km: wrong.km:2:1: no command has the name `kmaloc`
    kmaloc 64
    ^
  the commands are in docs/SCRIPTS.md'
wrong 'kmalloc 64\n' 'km: wrong.km:1:1: the first command of a script is `memory W`
    kmalloc 64
    ^
  expected: kmalloc SIZE [REG]'
wrong 'memory 512\n  memory 512\n' 'km: wrong.km:2:3: `memory` is the first command of a script, and no other
      memory 512
      ^
  expected: memory W'
wrong 'memory 500\n' 'km: wrong.km:1:8: `500` is no W
    memory 500
           ^
  expected: memory W'
wrong 'memory 512\nstore t.r0\n' 'km: wrong.km:2:11: a word is missing: VAL
    store t.r0
              ^
  expected: store ADDR VAL'
wrong 'memory 512\nkmalloc 8 t.r4\n' 'km: wrong.km:2:11: `t.r4` is no REG
    kmalloc 8 t.r4
              ^
  expected: kmalloc SIZE [REG]'
wrong 'memory 512\n\tkfree 8 8\n' 'km: wrong.km:2:10: `8` is a word too many
     kfree 8 8
             ^
  expected: kfree ADDR'
wrong 'memory 512\ntick 3600001\n' 'km: wrong.km:2:6: `3600001` is no N
    tick 3600001
         ^
  expected: tick N'
wrong 'memory 512\nread \x01\n' 'km: wrong.km:2:6: a command is written in printable ASCII, and this byte is none
    read ?
         ^'
spaces=$(printf '%60s' '')
wrong "memory 512\n#$spaces$spaces$spaces$spaces$(printf '%16s' '')\n" "km: wrong.km:2:257: a line has at most 256 bytes, a comment too; this one has 257
    $spaces$(printf ' ')
    $spaces^"

# The forms that km knows are those of the program.
while read -r word rest; do
  line=$word
  for part in $rest; do
    case $part in
      NAME) line+=' n' ;;
      REG | '[REG]') line+=' n.r0' ;;
      VAL | ADDR) line+=' n.stack+8' ;;
      WORD) line+=' scan' ;;
      *) line+=' 512' ;;
    esac
  done
  first='memory 512\n'
  if [ "$word" = memory ]; then
    first=''
  fi
  same "the form of $word" "$(printf '%b%s\n' "$first" "$line" | "$PROGRAM" check | grep -c 'commands$')" 1
  same "the form of $word with a word more" "$(printf '%b%s x\n' "$first" "$line" | "$PROGRAM" check | grep -c '^not')" 1
done < <(grep -v '^ ' tools/km-forms.txt)

# How it ends.
ends() {
  local status=$1
  shift
  same "the status of km $*" "$(tools/km "$@" >/dev/null 2>&1 </dev/null; echo $?)" "$status"
}
ends 0 examples/first-leak.km
ends 20 --leaks examples/first-leak.km
ends 20 --leaks examples/false-positive.km examples/container-of-and-ring.km
ends 0 --leaks examples/false-positive.km
ends 21 --strict examples/refusals.km
ends 21 --leaks --strict examples/off.km
ends 0 --strict examples/first-leak.km
ends 0 check examples/first-leak.km examples/vmalloc.km
ends 1 check examples/first-leak.km examples/no-command.km
ends 1 --leaks --strict examples/no-command.km
ends 2 examples
ends 2 "$room/none.km" examples/first-leak.km
ends 0 --help
ends 0 --version
ends 0 -
ends 5
ends 5 check
ends 5 --leak examples/first-leak.km
ends 5 --leaks check examples/first-leak.km
same 'the status where the report can not be written' "$(tools/km examples/first-leak.km 2>/dev/null >/dev/full; echo $?)" 3
same 'the status without a program' "$(PROGRAM=$room/none tools/km examples/first-leak.km >/dev/null 2>&1; echo $?)" 127
same 'the refused lines' "$(tools/km --strict examples/off.km 2>&1 >/dev/null)" 'km: examples/off.km:11: refused: disabled: write scan'
cp examples/off.km "$room/a | & \\n.km"
same 'a name with marks' "$(tools/km --strict "$room/a | & \\n.km" 2>&1 >/dev/null)" "km: $room/a | & \\n.km:11: refused: disabled: write scan"
same 'a script on standard input' "$(tools/km - <examples/first-leak.km | grep '^  by ')" '  by line 5: kmalloc 32 t.r1'
echo "km: $passed passed, $failed failed"
[ "$failed" -eq 0 ]
