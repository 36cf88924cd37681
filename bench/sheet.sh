#!/usr/bin/env bash
# The time of marking a sheet of 32,768 bytes, against `cat` of the same bytes.
# Build the program first: (cd crates/sheet && rt run < /dev/null). It prints both times of 200 runs and their ratio.
set -eu
cd "$(dirname "$0")/.."
program=crates/sheet/out/sheet
[ -x "$program" ] || { echo "build it first: (cd crates/sheet && rt run < /dev/null)" >&2; exit 1; }
sheet=crates/sheet_cases/data/longest.sheet
runs=200

# the milliseconds that 200 runs of a command take
spent() {
    local from to k
    from=$(date +%s%N)
    for ((k = 0; k < runs; k++)); do
        "$@" <"$sheet" >/dev/null
    done
    to=$(date +%s%N)
    echo $(((to - from) / 1000000))
}

cats=$(spent cat)
ours=$(spent "$program")
awk -v a="$ours" -v b="$cats" -v n="$runs" 'BEGIN {
    printf "sheet: %.2f ms a run; cat: %.2f ms a run; ratio %.2f\n", a / n, b / n, a / b
}'
