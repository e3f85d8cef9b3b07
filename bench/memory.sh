#!/usr/bin/env bash
# How many bytes a triple takes: the greatest resident set of the program after one INSERT block of so many lines, less
# that of the program without a triple, for each triple that it then has. Sizes may be given as words.
set -euo pipefail
source "$(dirname "${BASH_SOURCE[0]}")/common.sh"

sizes=("$@")
[[ $# -gt 0 ]] || sizes=(1000000)

# The greatest resident set, in KiB, once the script is carried out; and the last line of its answers.
peak_of() {
    local script=$1 answer line last=
    coproc TENTRIS { exec "$program"; }
    # the program reads on after the script, so that it can still be looked at
    { cat "$script"; echo STATS; } >&"${TENTRIS[1]}"
    while IFS= read -r line <&"${TENTRIS[0]}"; do
        [[ $line != 'ok stats' ]] || break
        [[ $line != triples* ]] || last=${line#triples }
    done
    answer=$(awk '/^VmHWM/ { print $2 }' "/proc/$TENTRIS_PID/status")
    exec {TENTRIS[1]}>&-
    wait "$TENTRIS_PID"
    echo "$answer $last"
}

: >"$folder/empty"
read -r empty none < <(peak_of "$folder/empty")
printf '%10s %10s %10s %16s\n' lines triples KiB 'bytes a triple'
for size in "${sizes[@]}"; do
    { echo INSERT; iri_lines "$size"; echo GO; } >"$folder/script"
    read -r peak triples < <(peak_of "$folder/script")
    printf '%10d %10d %10d %16.1f\n' "$size" "$triples" "$((peak - empty))" "$(ratio "($peak - $empty) * 1024" "$triples")"
done
