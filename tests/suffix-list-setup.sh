# Read in by the scripts that run suffix_lookup over the system's Public Suffix List. They have set `here`, the
# repository's top, and `list`. It sets `work`, a folder that goes with the script, and `lookup`, the program, proved and
# built from what stands here now; where there is no list it ends the script.
if [ ! -r "$list" ]; then
    echo "skipped: no Public Suffix List"
    exit 0
fi
if ! command -v rt >/dev/null 2>&1; then
    echo "the Rattle kit is missing: its command rt is not on the PATH" >&2
    exit 1
fi
work=$(mktemp -d)
trap 'rm -rf "$work"' EXIT
lookup=$here/crates/suffix_lookup/out/suffix_lookup
# The kit keeps what is proved and built already, and proves and builds what changed since.
if ! (cd "$here/crates/suffix_lookup" && rt run -- index data/rules.dat <stdin) >"$work/build.log" 2>&1; then
    tail -n 20 "$work/build.log" >&2
    echo "suffix_lookup was not proved and built" >&2
    exit 1
fi
