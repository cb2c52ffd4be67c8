#!/usr/bin/env bash
# Where the work goes: instructions a sheet by stage, counted by callgrind as `instructions.sh` counts them.
#     bench/stages.sh [CASE..]          the largest sheets and the one that is hard to narrow, where none is named
#
# Reading, the pass, planning, merging two halves and finding a line in them are jobs of their own (the planner's pass as the library for tests
# has it), printing is a page less planning, and limits are what their function takes. The rest of planning is seating and narrowing, or the
# ring. Of it, `seats` and `cuts` (the search for least cuts) are what their functions take; the compiler leaves no function for the planner's
# seats, nor for what else narrowing does.
set -euo pipefail
cd "$(dirname "${BASH_SOURCE[0]}")"
cargo build --offline --release --quiet
bench=${CARGO_TARGET_DIR:-target}/release/bench
# count FUNCTIONS CASE SIDE JOB N: all that a run takes (-), or what these functions take
count() {
    local within=()
    [ "$1" = - ] || for name in $1; do within+=("--toggle-collect=$name"); done
    valgrind --tool=callgrind --callgrind-out-file=/dev/null ${within[@]+"${within[@]}"} "$bench" --count "${@:2}" 2>&1 \
        | sed -nE 's/.*Collected : ([0-9]+).*/\1/p'
}
# a_sheet FUNCTIONS CASE SIDE JOB
a_sheet() {
    echo $((($(count "$@" 11) - $(count "$@" 1)) / 10 / $("$bench" --sheets "$2")))
}
declare -A functions=(
    [planner-limits]='limits::fill::fill_limits' [planner-seats]='' [planner-cuts]='plan_windows::least_cuts'
    [plain-limits]='plain::windows_inside plain::limits' [plain-seats]='plain::seats' [plain-cuts]='plain::Cuts::all_least'
)
declare -A took
printf '%-14s %-10s %10s %10s %7s\n' instructions stage planner plain ratio
for name in ${@:-largest-tight largest-none narrowing}; do
    for side in planner plain; do
        for job in read pass plan print whole merge line; do
            took[$side-$job]=$(a_sheet - "$name" $side $job)
        done
        for stage in limits seats cuts; do
            within=${functions[$side-$stage]}
            took[$side-$stage]=$([ -z "$within" ] && echo 0 || a_sheet "$within" "$name" $side plan)
        done
        took[$side-rest]=$((took[$side-plan] - took[$side-limits] - took[$side-pass]))
        took[$side-printing]=$((took[$side-print] - took[$side-plan]))
    done
    for stage in read limits pass rest seats cuts printing whole merge line; do
        awk -v name="$name" -v stage=$stage -v p="${took[planner-$stage]}" -v q="${took[plain-$stage]}" 'BEGIN {
            indent = stage == "seats" || stage == "cuts" ? "  " : ""
            printf "%-14s %-10s %10s %10s %7s\n", name, indent stage, p ? p : "-", q ? q : "-", p && q ? sprintf("%.2f", p / q) : "-" }'
    done
done
