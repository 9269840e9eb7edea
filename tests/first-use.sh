#!/usr/bin/env bash
# Checks `mortxalde` and the gate's part in it in a small repository, with a kit that only pretends: its `rt` writes down each
# call, and builds a program that prints its words and its input. The last line is 'N passed, M failed'.
set -u
top=$(cd "$(dirname "${BASH_SOURCE[0]}")/.." && pwd)
room=$(mktemp -d) || exit 1
trap 'rm -rf "$room"' EXIT
repository=$room/repository
calls=$room/calls
passed=0
failed=0

make_kit() {
  mkdir -p "$room/kit"
  cat >"$room/kit/rt" <<'KIT'
#!/usr/bin/env bash
# `$ROOM/refuses` names the command that fails, and `$ROOM/version` has the kit's version.
program() {
  mkdir -p "$1/out"
  cat >"$1/out/browser_app" <<'PROGRAM'
#!/bin/sh
echo "words: $*"
input=$(cat)
echo "input: $input"
[ -n "$input" ] || exit 5
PROGRAM
  chmod +x "$1/out/browser_app"
}
case $1 in
  version) cat "$ROOM/version"; exit ;;
esac
echo "$1" >>"$ROOM/calls"
sleep 0.05
[ "$(cat "$ROOM/refuses" 2>/dev/null)" != "$1" ] || { echo "it is not proved"; exit 1; }
case $1 in
  all) printf '== %s\nproved\n' low high browser_app summary ;;
  run) program . && shift 2 && exec out/browser_app "$@" ;;
  ci) program crates/browser_app ;;
esac
KIT
  chmod +x "$room/kit/rt"
  echo "kit 1" >"$room/version"
}

# A repository of a program, two crates below it and one beside it, in which nothing was built.
make_repository() {
  rm -rf "$repository" "$calls" "$room/refuses"
  mkdir -p "$repository/.ci" "$repository/tests/golden" "$repository/tests/against-chromium"
  cp "$top/mortxalde" "$repository/"
  cp "$top/.ci/run" "$top/.ci/program.sh" "$repository/.ci/"
  for part in golden/run audits.sh workers.sh first-use.sh script-schema.sh rules-pages.sh history-view.sh against-chromium/run; do
    printf '#!/bin/sh\nexit 0\n' >"$repository/tests/$part"
    chmod +x "$repository/tests/$part"
  done
  printf '# crates\nlow:\nhigh may_wait=1: low std_x\nbrowser_app: high # top\nbeside: low\n' >"$repository/crates.txt"
  echo "Handles allowed: none." >"$repository/HANDLES"
  for crate in low high browser_app beside; do
    mkdir -p "$repository/crates/$crate/src" "$repository/crates/$crate/specs"
    echo "$crate" >"$repository/crates/$crate/src/lib.rt"
    echo "$crate" >"$repository/crates/$crate/specs/Lib.antt"
  done
}

# Runs `mortxalde` with these words on a short input.
use() {
  echo hello | ROOM=$room PATH=$room/kit:$PATH "$repository/mortxalde" "$@" >"$room/stdout" 2>"$room/stderr"
}

# What the kit was asked since the last look, on one line.
asked() {
  if [ -f "$calls" ]; then tr '\n' ' ' <"$calls"; fi
  rm -f "$calls"
}

expect() {
  if [ "$2" = "$3" ]; then
    passed=$((passed + 1))
  else
    failed=$((failed + 1))
    printf 'first use: %s: %s in place of %s\n' "$1" "$2" "$3"
  fi
}

# Whether the next use builds anew, after what was done to the repository.
expect_stale() {
  use one
  expect "$1" "$(asked)" "all run "
}

expect_fresh() {
  use one
  expect "$1" "$(asked)" ""
}

expect_failure() {
  use one
  expect "$1: status" "$?" 126
  expect "$1: line" "$(tail -n 1 "$room/stderr")" "mortxalde: $2"
  expect "$1: output" "$(cat "$room/stdout")" ""
}

make_kit

make_repository
use one two
expect "the first use: status" "$?" 0
expect "the first use: output" "$(cat "$room/stdout")" "words: one two
input: hello"
expect "the first use: how far it is" "$(grep "done" "$room/stderr")" "mortxalde: 1 of 3 crates done
mortxalde: 2 of 3 crates done
mortxalde: 3 of 3 crates done"
expect "the first use: what the kit was asked" "$(asked)" "all run "

expect_fresh "the second use"
expect "the second use: standard error" "$(cat "$room/stderr")" ""
ROOM=$room PATH=$room/kit:$PATH "$repository/mortxalde" </dev/null >/dev/null
expect "the program's own status" "$?" 5

echo "changed" >"$repository/crates/low/src/lib.rt"
touch -d 2001-01-01 "$repository/crates/low/src/lib.rt"
expect_stale "a source that changed with an older date"
touch "$repository/crates/low/src/lib.rt"
expect_fresh "a source with a newer date alone"
rm "$repository/crates/high/specs/Lib.antt"
expect_stale "a file that went"
mkdir "$repository/crates/high/proofs"
echo "new" >"$repository/crates/high/proofs/Lib.antt"
expect_stale "a file that came"
mv "$repository/crates/high/proofs/Lib.antt" "$repository/crates/high/proofs/Other.antt"
expect_stale "a file of another name"
echo "Handles allowed: Wait." >"$repository/HANDLES"
expect_stale "other handles"
echo "# a word" >>"$repository/crates.txt"
expect_stale "another crates.txt"
echo "kit 2" >"$room/version"
expect_stale "another kit"
echo "changed" >"$repository/crates/beside/src/lib.rt"
expect_fresh "a crate that the program doesn't stand on"
rm "$repository/out/browser_app"
expect_stale "a program that went"

# A PATH of all that the scripts call but the kit.
mkdir "$room/tools"
for tool in bash sh awk cat cp cut dirname find flock grep mkdir mv nproc readlink rm sha256sum sleep sort tail tee touch wc xargs; do
  ln -s "$(command -v "$tool")" "$room/tools/$tool"
done
echo hello | PATH=$room/tools "$repository/mortxalde" one >/dev/null 2>&1
expect "no kit, but a program that is built" "$?" 0
echo "changed again" >"$repository/crates/low/src/lib.rt"
echo hello | PATH=$room/tools "$repository/mortxalde" one >/dev/null 2>"$room/stderr"
expect "no kit: status" "$?" 126
expect "no kit: line" "$(cat "$room/stderr")" "mortxalde: the Rattle kit is missing: its command rt is not on the PATH"

for verb in all run; do
  make_repository
  echo "$verb" >"$room/refuses"
  expect_failure "rt $verb fails" "the program is not proved and built: out/build.log says why"
  rm "$room/refuses"
  asked >/dev/null
  expect_stale "after rt $verb failed"
done

make_repository
echo "in the way" >"$repository/out"
expect_failure "out/ can't be made" "the folder out/ can't be written"

make_repository
mkdir -p "$repository/out/lock"
expect_failure "out/lock can't be made" "the folder out/ can't be written"

make_repository
use one &
(use one)
wait
expect "two first uses at once" "$(asked)" "all run "

make_repository
(cd "$repository" && ROOM=$room PATH=$room/kit:$PATH .ci/run >"$room/stdout" 2>&1)
expect "the gate" "$?" 0
expect "the gate: what the kit was asked" "$(asked)" "ci "
expect "the gate: its first line at the end" "$(grep "^rt ci: " "$room/stdout")" "rt ci: passed"
expect_fresh "a use after the gate"

make_repository
echo ci >"$room/refuses"
(cd "$repository" && ROOM=$room PATH=$room/kit:$PATH .ci/run >"$room/stdout" 2>&1)
expect "a gate that fails" "$?" 1
expect "a gate that fails: golden runs" "$(grep "^golden runs: FAILED" "$room/stdout")" "golden runs: FAILED"

make_repository
for part in script-schema.sh history-view.sh against-chromium/run; do
  printf '#!/bin/sh\nexit 77\n' >"$repository/tests/$part"
done
(cd "$repository" && ROOM=$room PATH=$room/kit:$PATH .ci/run >"$room/stdout" 2>&1)
expect "a gate without python3" "$?" 0
expect "a gate without python3: its lines" "$(grep "NOT CHECKED" "$room/stdout")" \
  "script schema: NOT CHECKED, since python3 with jsonschema is missing
history view: NOT CHECKED, since python3 of version 3.8 or later is missing
beside a real Chromium: NOT CHECKED, since Debian's chromium, or what it needs, is missing"

make_repository
printf '#!/bin/sh\nexit 1\n' >"$repository/tests/history-view.sh"
(cd "$repository" && ROOM=$room PATH=$room/kit:$PATH .ci/run >"$room/stdout" 2>&1)
expect "a gate whose history view fails" "$?" 1

make_repository
printf '#!/bin/sh\nexit 1\n' >"$repository/tests/against-chromium/run"
(cd "$repository" && ROOM=$room PATH=$room/kit:$PATH .ci/run >"$room/stdout" 2>&1)
expect "a gate whose replays in Chromium fail" "$?" 1

echo "$passed passed, $failed failed"
[ "$failed" -eq 0 ]
