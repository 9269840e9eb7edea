#!/usr/bin/env bash
# Want of memory of a core, outside the gate: of each built test of `core_rows` allocation 1, 2, 3 .. fails, until it makes no more. A
# call of the core that finds no memory is made once more by its row, and must then come out as the row says; anything else that finds
# none ends its row with that answer. So each time the test must pass, or fail with the harness's own status of a failed test and with
# want of memory as its answer; a crash, a panic or a failed comparison is a failure here. The tests are built anew each time. A word is a
# limit of allocations, for a quick look: a test that makes more then counts as a failure. Where no C compiler is there, nothing is
# checked, and the status is 77. The last line is 'N passed, M failed'.
set -u
top=$(cd "$(dirname "${BASH_SOURCE[0]}")/.." && pwd)
limit=${1:-1000000}
rows=$top/crates/core_rows/out/core_rows_tests
if ! command -v cc >/dev/null 2>&1; then
  echo "want of memory of a core is NOT CHECKED: a C compiler is missing"
  exit 77
fi
rm -f "$rows"
(cd "$top/crates/core_rows" && rt test) || exit 1
if [ ! -x "$rows" ]; then
  echo "want of memory of a core: the tests were not built"
  exit 1
fi
room=$(mktemp -d) || exit 1
trap 'rm -rf "$room"' EXIT
cc -O2 -shared -fPIC -o "$room/fail_alloc.so" "$top/tests/fail-alloc/fail_alloc.c" || exit 1
passed=0
failed=0

# Counts a failure, and tells what failed.
fail() {
  failed=$((failed + 1))
  echo "want of memory of a core: $1"
}

# Whether a test answered that it found no memory: the harness ended by itself, with its status of a failed test, and told the answer.
lacks_memory() {
  [ "$1" = 101 ] \
    && grep -q '^the test failed: its result gives status 1$' "$room/output" \
    && grep -qE '^error: (NoMemory|AllocError|AllocFailed.*)$' "$room/output"
}

# Fails one allocation of a test after another, until none is met.
fail_each() {
  local number status
  for ((number = 1; number <= limit; number++)); do
    rm -f "$room/mark"
    FAIL_ALLOC=$number FAIL_ALLOC_MARK=$room/mark LD_PRELOAD=$room/fail_alloc.so "$rows" "$1" >"$room/output" 2>&1
    status=$?
    if [ ! -f "$room/mark" ]; then break; fi
    if [ "$status" = 0 ] || lacks_memory "$status"; then
      passed=$((passed + 1))
    else
      fail "$1, allocation $number: status $status"
      sed 's/^/  /' "$room/output" | head -5
    fi
  done
  if [ "$number" -gt "$limit" ]; then fail "$1: only the first $limit allocations were tried"; fi
  if [ "$number" = 1 ]; then fail "$1: no allocation was met"; fi
}

tests=$("$rows" --list | sed -n 's/: test$//p')
if [ -z "$tests" ]; then fail "no test was found"; fi
for test in $tests; do fail_each "$test"; done
echo "$passed passed, $failed failed"
[ "$failed" = 0 ]
