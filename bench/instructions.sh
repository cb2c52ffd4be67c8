#!/usr/bin/env bash
# Instructions for all sheets of a case, counted by callgrind: a tenth of what a run that does the job eleven times takes more than
# one that does it once. The last column has the planner's job beside its planning, so that `decide` has there what it costs of a plan.
#     bench/instructions.sh [CASE..]
set -euo pipefail
cd "$(dirname "${BASH_SOURCE[0]}")"
cargo build --offline --release --quiet
bench=${CARGO_TARGET_DIR:-target}/release/bench
count() {
    valgrind --tool=callgrind --callgrind-out-file=/dev/null "$bench" --count "$@" 2>&1 | sed -nE 's/.*Collected : ([0-9]+).*/\1/p'
}
declare -A took
printf '%-14s %-7s %12s %12s %7s %7s\n' instructions job planner plain ratio 'of plan'
for name in ${@:-$("$bench" --list)}; do
    for job in $("$bench" --jobs); do
        for side in planner plain; do
            many=$(count "$name" $side $job 11)
            once=$(count "$name" $side $job 1)
            took[$side-$job]=$(((many - once) / 10))
        done
    done
    for job in $("$bench" --jobs); do
        awk -v name="$name" -v job=$job -v p="${took[planner-$job]}" -v q="${took[plain-$job]}" -v plan="${took[planner-plan]}" \
            'BEGIN { printf "%-14s %-7s %12d %12d %7.2f %7.2f\n", name, job, p, q, p / q, p / plan }'
    done
done
