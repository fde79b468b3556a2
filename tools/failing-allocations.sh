#!/usr/bin/env bash
# Runs what was built with each allocation refused in turn, outside the gate: the table of scripts that take memory, and
# kmlive on a live script. A run that is refused memory must have written nothing but the texts of the lines before, and
# any other what it writes with ample memory. `cc` builds the few lines of C that refuse.
# usage: tools/failing-allocations.sh
set -eu
cd "$(dirname "$0")/.."
work=$(mktemp -d)
trap 'rm -rf "$work"' EXIT
cc -O1 -shared -fPIC -o "$work/refuse.so" tools/refuse.c -ldl
failed=0

# build NAME: builds the program, unless it was built
build() {
  if [ ! -x "crates/$1/out/$1" ]; then
    echo "failing allocations: building crates/$1; where nothing is kept this proves its libraries first" >&2
    (cd "crates/$1" && rt run </dev/null >/dev/null)
  fi
}

# ends_as_table STATUS: whether the program of the table may end so. It takes memory of its own, and ends with 1 without it
ends_as_table() {
  case $1 in
    0) cmp -s "$work/written" "$work/whole" ;;
    1) ! grep -q DIFFERS "$work/written" ;;
    *) false ;;
  esac
}

# ends_as_kmlive STATUS: whether kmlive may end so: the lines that take memory come before or after the first two texts
ends_as_kmlive() {
  case $1 in
    0) cmp -s "$work/written" "$work/whole" ;;
    4) [ ! -s "$work/written" ] || cmp -s "$work/written" <(head -n 2 "$work/whole") ;;
    *) false ;;
  esac
}

# refuse_each NAME JUDGE INPUT COMMAND..: refuses each allocation of the command in turn, until one isn't reached
refuse_each() {
  local name=$1 judge=$2 input=$3 number=1 status
  shift 3
  "$@" <"$input" >"$work/whole"
  while true; do
    status=0
    timeout 20 env REFUSE=$number LD_PRELOAD="$work/refuse.so" "$@" <"$input" >"$work/written" 2>"$work/told" || status=$?
    if ! "$judge" "$status"; then
      failed=$((failed + 1))
      echo "$name: with allocation $number refused it ends with $status, or writes something else"
    fi
    grep -q '^refused$' "$work/told" || break
    number=$((number + 1))
  done
  echo "$name: $((number - 1)) allocations refused, one in each run"
}

build kmlive
refuse_each kmlive ends_as_kmlive examples/lost-under-stores.live crates/kmlive/out/kmlive
build script_tables
cd crates/script_tables
refuse_each script_tables ends_as_table /dev/null out/script_tables refused data/memory.txt
exit $((failed > 0))
