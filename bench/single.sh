#!/usr/bin/env bash
# What one INSERT and one DELETE of one triple cost over a graph: microseconds of processor time for each block of one
# line, behind one INSERT block of so many lines. Sizes may be given as words.
set -euo pipefail
source "$(dirname "${BASH_SOURCE[0]}")/common.sh"

sizes=("$@")
[[ $# -gt 0 ]] || sizes=(26000 250000 1000000)

# so many blocks of one line each
blocks() {
    awk -v n="$1" -v word="$2" 'BEGIN {
        for (k = 0; k < n; k++)
            printf "%s\n<urn:n:%06d> <urn:p:0> <urn:n:new%d> .\nGO\n", word, k * 7, k
    }'
}

# The microseconds of one block: so many as make up for the noise of what stands before them.
each_of() {
    local count=20 before=$1 with
    while :; do
        { cat "$folder/script"; blocks "$count" INSERT; [[ $2 == INSERT ]] || blocks "$count" DELETE; } >"$folder/more"
        with=$(least_seconds "$folder/more" "$program")
        if awk "BEGIN { exit !($with - $before > 0.5 * $before || $count >= 20000) }"; then
            ratio "($with - $before) * 1000000" "$count"
            return
        fi
        count=$((count * 10))
    done
}

printf '%10s %16s %16s\n' lines 'INSERT, us' 'with DELETE, us'
for size in "${sizes[@]}"; do
    { echo INSERT; iri_lines "$size"; echo GO; } >"$folder/script"
    before=$(least_seconds "$folder/script" "$program")
    printf '%10d %16.1f %16.1f\n' "$size" "$(each_of "$before" INSERT)" "$(each_of "$before" DELETE)"
done
