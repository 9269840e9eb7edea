#!/usr/bin/env bash
# Want of memory, outside the gate: of each run below allocation 1, 2, 3 .. fails, until the run makes no more. Each time the run
# must end with the status 7, the line `no memory` and nothing on standard output, or exactly as it ends with all its memory, where
# it does without that allocation; its line on standard error alone may then be missing. Of `gen`, whose run takes hours, the first
# 2,000 are tried, which all fall into the making of its script. A word is a limit of allocations a run, for a quick look: a run that
# makes more then counts as a failure. Allocations fail by a preloaded library, since the kit's `--fail-alloc` runs what is not built.
# Where no C compiler is there, nothing is checked, and the status is 77. The last line is 'N passed, M failed'.
set -u
top=$(cd "$(dirname "${BASH_SOURCE[0]}")/.." && pwd)
. "$top/.ci/program.sh"
limit=${1:-1000000}
if ! command -v cc >/dev/null 2>&1; then
  echo "want of memory is NOT CHECKED: a C compiler is missing"
  exit 77
fi
if ! program_is_ready; then
  echo "want of memory: the program is not built"
  echo "0 passed, 1 failed"
  exit 1
fi
room=$(mktemp -d) || exit 1
trap 'rm -rf "$room"' EXIT
cc -O2 -shared -fPIC -o "$room/fail_alloc.so" "$top/tests/fail-alloc/fail_alloc.c" || exit 1
passed=0
failed=0

# Runs the program on standard input with one allocation failing.
run_short_of_memory() {
  FAIL_ALLOC=$1 FAIL_ALLOC_MARK=$room/mark LD_PRELOAD=$room/fail_alloc.so "$program" "${@:2}" \
    <"$room/input" >"$room/stdout" 2>"$room/stderr"
}

# Checks one run: its words, over the file `input`. Its own status may come where the line for it finds no memory.
check_run() {
  local name=$1 number status wanted
  shift
  "$program" "$@" <"$room/input" >"$room/whole" 2>"$room/line"
  wanted=$?
  for ((number = 1; number <= limit; number++)); do
    rm -f "$room/mark"
    run_short_of_memory "$number" "$@"
    status=$?
    if [ ! -f "$room/mark" ]; then break; fi
    if [ "$status" = 7 ] && [ "$(cat "$room/stderr")" = "no memory" ] && [ ! -s "$room/stdout" ]; then
      passed=$((passed + 1))
    elif [ "$status" = "$wanted" ] && cmp -s "$room/stdout" "$room/whole" \
      && { [ ! -s "$room/stderr" ] || cmp -s "$room/stderr" "$room/line"; }; then
      passed=$((passed + 1))
    else
      failed=$((failed + 1))
      echo "want of memory: $name: allocation $number: status $status"
    fi
  done
  if [ "$number" -gt "$limit" ]; then
    failed=$((failed + 1))
    echo "want of memory: $name: only the first $limit allocations were tried"
  fi
  if [ "$number" = 1 ]; then
    failed=$((failed + 1))
    echo "want of memory: $name: no allocation was met"
  fi
}

# Checks the first allocations of a run that takes too long to be whole: each must end it, and at once.
check_front() {
  local name=$1 front=$2 number status
  shift 2
  for ((number = 1; number <= front && number <= limit; number++)); do
    FAIL_ALLOC=$number FAIL_ALLOC_MARK=$room/mark timeout 20 env LD_PRELOAD="$room/fail_alloc.so" "$program" "$@" \
      </dev/null >"$room/stdout" 2>"$room/stderr"
    status=$?
    if [ "$status" = 7 ] && [ "$(cat "$room/stderr")" = "no memory" ] && [ ! -s "$room/stdout" ]; then
      passed=$((passed + 1))
    else
      failed=$((failed + 1))
      echo "want of memory: $name: allocation $number: status $status"
    fi
  done
}

for script in "$top"/examples/*.json; do
  cp "$script" "$room/input"
  check_run "one on $(basename "$script")" one
done
for folder in "$top"/tests/golden/an-audit-*/; do
  cp "$folder/stdin" "$room/input"
  check_run "audit, $(basename "$folder")" audit
done
printf '[]' >"$room/input"
check_run "a refused script" one
check_run "no command" nothing
check_front "gen 7" 2000 gen 7
echo "$passed passed, $failed failed"
[ "$failed" -eq 0 ]
