#!/bin/sh
# Compares this repository's look-up with the psl tool over the system's Public Suffix List: each rule, a label and two
# labels before it. It is no part of the gate, and skips itself where the list or the tool is missing. Rules with bytes
# above 127 are left out: this repository passes them over. So is the parent of a rule with `*` as a host of its own,
# which psl takes for a public suffix too, where the list's algorithm does not.
set -eu
list=${1:-/usr/share/publicsuffix/public_suffix_list.dat}
here=$(cd "$(dirname "$0")/.." && pwd)
if ! command -v psl >/dev/null 2>&1; then
    echo "skipped: no psl tool"
    exit 0
fi
. "$here/tests/suffix-list-setup.sh"
LC_ALL=C awk '
    /^\/\// { next }
    { sub(/[ \t\r].*/, "") }
    $0 == "" || /[\200-\377]/ { next }
    { sub(/^!/, ""); sub(/^\*/, "star"); print; print "a." $0; print "b.a." $0 }
' "$list" >"$work/hosts"
printf '%s\n' com unknown a.unknown b.a.unknown >>"$work/hosts"
LC_ALL=C sort -u "$work/hosts" -o "$work/hosts"
"$lookup" index "$list" <"$work/hosts" >"$work/index"
"$lookup" plain "$list" <"$work/hosts" >"$work/plain"
psl --load-psl-file "$list" --print-reg-domain -b <"$work/hosts" | sed 's/^(null)$/-/' >"$work/psl"
cmp "$work/index" "$work/plain"
if ! cmp -s "$work/index" "$work/psl"; then
    paste "$work/hosts" "$work/index" "$work/psl" | awk -F '\t' '$2 != $3' | head -20
    echo "failed: these hosts differ (host, this repository, psl)"
    exit 1
fi
echo "passed: $(wc -l <"$work/hosts") hosts"
