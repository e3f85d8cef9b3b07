#!/usr/bin/env bash
# How the time of one INSERT block grows with its lines: the seconds of each size, also for 100,000 lines of it, and
# the ratio of the last to the first. Sizes may be given as words.
set -euo pipefail
source "$(dirname "${BASH_SOURCE[0]}")/common.sh"

sizes=("$@")
[[ $# -gt 0 ]] || sizes=(100000 300000 1000000)

first=
printf '%10s %10s %20s\n' lines seconds 'per 100,000 lines'
for size in "${sizes[@]}"; do
    { echo INSERT; iri_lines "$size"; echo GO; } >"$folder/script"
    seconds=$(least_seconds "$folder/script" "$program")
    each=$(ratio "$seconds * 100000" "$size")
    printf '%10d %10.3f %20.4f\n' "$size" "$seconds" "$each"
    first=${first:-$each}
done
printf 'last to first, per line: %.2f\n' "$(ratio "$each" "$first")"
