#!/usr/bin/env bash
# Checks tools/history-view: that it reads each line as the proved reader's own tests say, that its JSON form is that of
# docs/HISTORY_JSON.md, that its pages of all examples and golden runs are whole and safe, and how it refuses. Where a
# Chromium is installed the pages are opened in it, without a network; `--picture FILE` leaves the picture that README
# shows. Where python3 of version 3.8 or later is missing, nothing is checked, and the status is 77. The last line is
# 'N passed, M failed'.
set -u
top=$(cd "$(dirname "${BASH_SOURCE[0]}")/.." && pwd)
if ! command -v python3 >/dev/null 2>&1 || ! python3 -c 'import sys; sys.exit(sys.version_info < (3, 8))'; then
  echo "the history view is NOT CHECKED: python3 of version 3.8 or later is missing"
  exit 77
fi
exec python3 -B "$top/tests/history_view/run.py" "$@"
