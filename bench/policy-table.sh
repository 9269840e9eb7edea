#!/bin/sh
# Times the shared policy table, and runs its stress test: sixteen threads, a million calls and a million looks.
# It builds the proved program first. Outside the merge gate, since its times are those of the machine.
set -eu

rounds=${1:-100000000}   # looks at a row, and loads of a plain word
calls=${2:-4000000}      # calls in all, by one thread and by four
stress=62500             # rounds of each of the sixteen threads

cd "$(dirname "$0")/../crates/policy_table_stress"
rt run <stdin >/dev/null
program=out/policy_table_stress

# Runs one line, and prints its seconds and its answer.
timed() {
    start=$(date +%s%N)
    answer=$(echo "$1" | "$program")
    end=$(date +%s%N)
    nanoseconds=$((end - start))
    printf '%d.%03d s, %d ns each: %s\n' \
        $((nanoseconds / 1000000000)) $((nanoseconds / 1000000 % 1000)) $((nanoseconds / $2)) "$answer"
}

timed "word $rounds" "$rounds"
timed "look $rounds" "$rounds"
timed "act $calls 1" "$calls"
timed "act $((calls / 4)) 4" "$calls"
timed "act_and_look $stress 16" $((stress * 16))

# No entry and no place may be lost, whatever the schedule: the places are 0 to 999,999, each once.
wanted="act_and_look $stress 16: 1000000 entries, 1000000 calls at places that add up to 499999500000, 1000000 looks, 0 steps back"
[ "$answer" = "$wanted" ] || { echo "the stress test failed" >&2; exit 1; }
