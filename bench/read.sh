#!/usr/bin/env bash
# How fast lines are read: a DELETE block over the empty graph, which reads and keeps each triple and then finds
# nothing to take away. Where rapper or serdi are installed, they read the same lines, and the ratio of the time here to
# their time is printed: below 1, this program is faster. A number of lines may be given as a word.
set -euo pipefail
source "$(dirname "${BASH_SOURCE[0]}")/common.sh"

count=${1:-300000}

# A reader's seconds, lines per second, and how the time here compares to its time.
row() {
    printf '%-22s %-8s %8.3f %12.0f %8.2f\n' "$1" "$2" "$3" "$(ratio "$count" "$3")" "$(ratio "$4" "$3")"
}

# Measures the readers on the lines that a function gives.
measure() {
    local name=$1 here other
    "$2" "$count" >"$folder/lines"
    { echo DELETE; cat "$folder/lines"; echo GO; } >"$folder/script"
    here=$(least_seconds "$folder/script" "$program")
    row "$name" tentris "$here" "$here"
    if command -v rapper >"$folder/found"; then
        other=$(least_seconds /dev/null rapper -q -c -i ntriples "$folder/lines")
        row "$name" rapper "$other" "$here"
    fi
    # serdi also writes the lines
    if command -v serdi >"$folder/found"; then
        other=$(least_seconds /dev/null serdi -i ntriples -o ntriples "$folder/lines")
        row "$name" serdi "$other" "$here"
    fi
}

printf '%-22s %-8s %8s %12s %8s\n' lines reader seconds 'lines/s' ratio
measure '41 bytes, IRIs' iri_lines
measure '170 bytes, literals' literal_lines
