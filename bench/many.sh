#!/usr/bin/env bash
# Many sheets by one process with threads, beside a process a sheet: seconds, and how many times as long as the last way.
#     bench/many.sh [N [CASE..]]          5,000 small sheets, and 5,000 of the largest, where nothing is named
# Each way is timed three times, in turns, and the least counts. Before that the pages of all ways are compared.
set -euo pipefail
count=${1:-5000}
cases=("${@:2}")
[ ${#cases[@]} -gt 0 ] || cases=(paper-24 largest-tight)
cd "$(dirname "${BASH_SOURCE[0]}")"
cargo build --offline --release --quiet
bench=$PWD/${CARGO_TARGET_DIR:-target}/release/bench
../tugrokt --version >/dev/null
command=$PWD/../target/bin/tugrokt
program=$(cd ../crates/wave && pwd)/out/wave
[ -x "$program" ] || (cd ../crates/wave && rt run </dev/null >/dev/null)
work=$(mktemp -d)
trap 'rm -rf "$work"' EXIT

# Each way puts the page of every sheet into a folder. Sheets without a plan end with another status than 0, which is no matter here.
processes_wave() { for sheet in *; do "$program" <"$sheet" >"$1/$sheet.page"; done; }
processes() { printf '%s\n' * | xargs -n 1 "$command" plan --to "$1" 2>/dev/null || true; }
processes_two() { printf '%s\n' * | xargs -P 2 -n 1 "$command" plan --to "$1" 2>/dev/null || true; }
one_thread() { "$command" plan -j 1 --to "$1" -- * 2>/dev/null || true; }
two_threads() { "$command" plan -j 2 --to "$1" -- * 2>/dev/null || true; }
ways=(processes_wave processes processes_two one_thread two_threads)
names=('a process a sheet: wave' 'a process a sheet: tugrokt' 'the same, two at a time' 'one process, one thread' 'one process, two threads')

# Times every way on the sheets of this folder.
measure() {
    local -A least=()
    local round way began took i
    for round in compare 1 2 3; do
        for way in "${ways[@]}"; do
            rm -rf "$work/$way" && mkdir "$work/$way"
            began=$(date +%s%N)
            "$way" "$work/$way"
            took=$((($(date +%s%N) - began) / 1000))
            if [ "$round" = compare ]; then
                diff -r "$work/processes_wave" "$work/$way" >/dev/null || { echo "$way: other pages" >&2; exit 1; }
            elif [ "$took" -lt "${least[$way]:-$((took + 1))}" ]; then
                least[$way]=$took
            fi
        done
    done
    for i in "${!ways[@]}"; do
        awk -v name="${names[i]}" -v took="${least[${ways[i]}]}" -v last="${least[two_threads]}" \
            'BEGIN { printf "%-30s %9.2f %7.2f\n", name, took / 1e6, took / last }'
    done
}

for name in "${cases[@]}"; do
    rm -rf "$work/sheets" && mkdir "$work/sheets"
    "$bench" --files "$work/sheets" "$count" "$name"
    printf '%-30s %9s %7s\n' "$count sheets, $name" seconds ratio
    (cd "$work/sheets" && measure)
done
