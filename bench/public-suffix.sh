#!/bin/sh
# Times reading the system's Public Suffix List, and looking up 100,000 hosts in it: by the index, and by going over the
# plain list, for 1,000 hosts. Run it by hand, after the gate.
set -eu
list=${1:-/usr/share/publicsuffix/public_suffix_list.dat}
here=$(cd "$(dirname "$0")/.." && pwd)
. "$here/tests/suffix-list-setup.sh"
LC_ALL=C awk '
    /^\/\// { next }
    { sub(/[ \t\r].*/, "") }
    $0 == "" || /[\200-\377]/ || /^!/ { next }
    { sub(/^\*\./, ""); suffixes[++count] = $0 }
    END { for (i = 0; i < 100000; i++) print "www.shop" i "." suffixes[i % count + 1] }
' "$list" >"$work/hosts"
head -n 1000 "$work/hosts" >"$work/few"
: >"$work/none"
timed() {
    begin=$(date +%s%N)
    "$lookup" "$1" "$list" <"$2" >"$work/out"
    end=$(date +%s%N)
    echo "$3: $(((end - begin) / 1000000)) ms"
}
timed plain "$work/none" "reading the plain list"
timed index "$work/none" "reading the list and its index"
timed index "$work/hosts" "reading, and 100,000 look-ups by the index"
timed plain "$work/few" "reading, and 1,000 look-ups over the plain list"
