#!/usr/bin/env bash
# Scripts that mean harm, each through a pipe: deep, wide and long texts. Prints for each the last line of its answers,
# the seconds of processor time and the greatest resident set in MiB. One that neither ends well nor with refused
# commands ends the benchmark.
set -euo pipefail
source "$(dirname "${BASH_SOURCE[0]}")/common.sh"

# a text, so many times
repeat() {
    awk -v text="$1" -v n="$2" 'BEGIN { while (n--) printf "%s", text }'
}

# a QUERY block of what stands between its first bytes and its last ones
query_of() {
    printf 'QUERY\n%s' "$1"
    shift
    "$@"
    printf '\nGO\n'
}

brackets() { query_of 'SELECT * { ?s ?p ' repeat '[' 500000; }

nest() {
    repeat '[ <x:p> ' 100000
    printf '?o'
    repeat ' ]' 100000
    printf ' }'
}

# an open nest of the same depth as the closed one
deep() { query_of 'SELECT * { ?s ?p ' nest; }

wide() {
    repeat ',:' 499999
    printf ' }'
}

objects() { query_of $'PREFIX : <x:a>\nSELECT * { ?s : :' wide; }

# 32 patterns whose predicate has a mebibyte, less the rest of the query
uses() {
    repeat a 1048000
    printf '>\nSELECT * { '
    repeat '?s p: ?o . ' 32
    printf '}'
}

prefix() {
    printf 'INSERT\n<x:s> <x:'
    repeat a 1048000
    printf '> <x:o> .\nGO\n'
    query_of 'PREFIX p: <x:' uses
}

one_line() {
    head -c 1073741824 /dev/zero | tr '\0' x
    echo
}

# all triples, 31 times over, and then those of a predicate that none has
patterns() {
    awk 'BEGIN { for (k = 1; k < 32; k++) printf "?s%d ?p%d ?o%d . ", k, k, k }'
    printf '?s <x:none> ?o }'
}

product() {
    echo INSERT
    awk 'BEGIN { for (k = 0; k < 1000; k++) printf "<x:s%d> <x:p> <x:o%d> .\n", k, k }'
    echo GO
    query_of 'SELECT * { ' patterns
}

# 33,334 triples of which no two have a term in common
terms() {
    echo INSERT
    awk 'BEGIN { for (k = 0; k < 33334; k++) printf "<x:s%d> <x:p%d> <x:o%d> .\n", k, k, k }'
    printf 'GO\nSTATS\nSHAPE\n'
}

# 100,000 terms that have one hash under the seed 0: five pieces, each in ten ways, and an end
colliding() {
    echo INSERT
    awk 'NR <= 50 { piece[NR] = $0 }
        NR == 51 {
            for (k = 0; k < 100000; k++) {
                text = ""
                for (group = 0; group < 5; group++)
                    text = text piece[group * 10 + int(k / 10 ^ group) % 10 + 1]
                printf "<x:s> <x:p> <%s%s> .\n", text, $0
            }
        }' "$(dirname "${BASH_SOURCE[0]}")/colliding_terms.txt"
    printf 'GO\nSTATS\n'
}

# 20,000 sets of objects: sums of 16 sets of Ids whose mixes cancel. The first lines give the objects their Ids.
sets() {
    awk '{ set[NR] = $0 }
        END {
            for (id = 0; id < 81; id += 3)
                printf "<x:%d> <x:%d> <x:%d> .\n", id, id + 1, id + 2
            for (node = 1; node <= 20000; node++) {
                turned = 1
                for (rest = node; rest % 2 == 0; rest /= 2)
                    turned++
                for (id = 0; id < 80; id++) {
                    if (substr(set[turned], id + 1, 1) == 1)
                        has[id] = !has[id]
                    if (has[id])
                        printf "<x:s%d> <x:0> <x:%d> .\n", node, id
                }
            }
        }' "$(dirname "${BASH_SOURCE[0]}")/colliding_nodes.txt"
    printf 'GO\nSTATS\n'
}

nodes() {
    echo INSERT
    sets
}

# the same sets of other Ids, whose mixes don't cancel
others() {
    printf 'INSERT\n<x:a> <x:a> <x:a> .\n'
    sets
}

measure() {
    local name=$1 seconds kib
    # a script with a refused command ends with 1
    "$2" | command time -f '%U %S %M' -o "$folder/cost" "$program" >"$folder/answer" || [[ $? -eq 1 ]]
    read -r seconds kib < <(tail -n 1 "$folder/cost" | awk '{ print $1 + $2, $3 }')
    printf '%-46s %-18s %8.2f %8.1f\n' "$name" "$(tail -n 1 "$folder/answer")" "$seconds" "$(ratio "$kib" 1024)"
}

printf '%-46s %-18s %8s %8s\n' script 'last line' seconds MiB
measure '500,000 opening brackets' brackets
measure '100,000 brackets, closed' deep
measure '500,000 objects' objects
measure 'a prefix of nearly a mebibyte, 32 times' prefix
measure 'one line of a gibibyte' one_line
measure '32 patterns of 95 labels, one without triples' product
measure '100,002 terms, and their shape' terms
measure '100,000 terms that collide under one seed' colliding
measure '20,000 nodes that have one hash' nodes
measure 'the same nodes of other Ids' others
