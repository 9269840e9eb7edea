#!/usr/bin/env bash
# Workers of the built program. `run` with 1, 2, 4 and 16 workers on each example and each golden run of `one`: the status is 0, nothing
# stands on standard error, and the program's own `audit` passes the text. Then rows whose heads, pieces and ends do not depend on who
# comes first: responses that read blocking judges, under `run 4`, and a shop page under `run 16`. With `--stress`, and perhaps a number,
# 1,000 or so many runs of 16 workers over scripts that are made by number, by `workers_stress`, whose gate delays the workers by a seed,
# each audited, in place of all that: outside the gate.
# Where python3 is missing, nothing is checked, and the status is 77. The last line is 'N passed, M failed'.
set -u
top=$(cd "$(dirname "${BASH_SOURCE[0]}")/.." && pwd)
. "$top/.ci/program.sh"
if ! command -v python3 >/dev/null 2>&1; then
  echo "workers are NOT CHECKED: python3 is missing"
  exit 77
fi
if [ "${1-}" = --stress ]; then
  cd "$top/crates/workers_stress" || exit 1
  rt run -- 1 <stdin >/dev/null 2>&1 || { echo "workers: workers_stress was not proved and built" >&2; exit 1; }
  exec python3 "$top/tests/workers/check.py" "$top" "$PWD/out/workers_stress" "$@"
fi
if ! program_is_ready; then
  echo "workers: the program is not built"
  echo "0 passed, 1 failed"
  exit 1
fi
exec python3 "$top/tests/workers/check.py" "$top" "$program" "$@"
