#!/usr/bin/env bash
# Runs three scripts with each growth of memory refused in turn: the first call for memory, then the second, and so on,
# until none is left. After each run SHAPE must be the shape of the graph that DUMP shows; the first run after which it
# isn't ends this with 1. Prints for each script how many growths there were, and in how many runs a command was refused
# for one; in the others memory ran out before the script was read, or the program did without: an index that can't
# grow keeps its entries where they are, and the answers are those of a whole run. It wants a C compiler.
#
# With numbers as words, these growths alone are refused, by `rt try`, which needs no proof and stops at each bad access,
# but builds the program anew for each of them.
set -euo pipefail
source "$(dirname "${BASH_SOURCE[0]}")/common.sh"

# two triples that come and go together with a third one
write_faults() {
    local two=$'INSERT\n<x:a> <x:p> <x:b> .\n<x:a> <x:p> <x:c> .\nGO\n'
    printf '%sSHAPE\nSTATS\n' "$two"
    printf 'INSERT\n<x:a> <x:p> <x:c> .\n<x:z> <x:q> <x:b> .\nGO\n'
    printf 'INSERT\n<x:a> <x:p> <x:b> .\nGO\nDELETE\n<x:z> <x:q> <x:b> .\nGO\nSHAPE\n'
    printf '%sQUERY\nSELECT ?s { ?s ?p ?o }\nGO\n' "$two"
}

# one file under two scopes
write_loads() {
    cat <<'END'
LOAD SCOPE one alice.nt
LOAD SCOPE two alice.nt
QUERY
PREFIX foaf: <http://xmlns.com/foaf/0.1/>
SELECT ?n ?m
WHERE { ?x a foaf:Person ; foaf:name ?n ; foaf:knows ?y .
        ?y foaf:name ?m . }
GO
END
}

# two triples more in a graph of a thousand
write_thousand() {
    echo INSERT
    awk 'BEGIN { for (k = 1; k <= 1000; k++) printf "<x:s> <x:p> <x:o%d> .\n", k }'
    printf 'GO\nINSERT\n<x:t> <x:q> <x:u> .\nGO\nINSERT\n<x:s> <x:p> <x:u> .\nGO\n'
}

write_file() {
    cat <<'END'
# FOAF extract
_:me <http://www.w3.org/1999/02/22-rdf-syntax-ns#type> <http://xmlns.com/foaf/0.1/Person> .
_:me <http://xmlns.com/foaf/0.1/name> "Alice"@EN .
_:me <http://xmlns.com/foaf/0.1/knows> _:b .   # a friend
_:b <http://www.w3.org/1999/02/22-rdf-syntax-ns#type> <http://xmlns.com/foaf/0.1/Person> .
_:b <http://xmlns.com/foaf/0.1/name> "Bob" .
END
}

# Refuses the call for memory whose number REFUSED gives, and then writes a byte to file 3.
build_refuser() {
    cat >"$folder/refuser.c" <<'END'
#include <stdlib.h>
#include <unistd.h>

extern void *__libc_malloc(size_t);
extern void *__libc_realloc(void *, size_t);

static int refuses(void)
{
    static unsigned long calls, refused;
    const char *number = getenv("REFUSED");
    if (!refused)
        refused = number ? strtoul(number, 0, 10) : -1ul;
    return ++calls == refused && write(3, "x", 1);
}

void *malloc(size_t size) { return refuses() ? 0 : __libc_malloc(size); }
void *realloc(void *old, size_t size) { return refuses() ? 0 : __libc_realloc(old, size); }
END
    cc -O1 -shared -fPIC -fno-builtin -o "$folder/refuser.so" "$folder/refuser.c"
}

# The last answer that ends in this word behind its ok, without that line.
last_answer() {
    awk -v word="$1" '
        /^(ok|refused) / { if ($2 == word) last = lines; lines = ""; next }
        { lines = lines $0 "\n" }
        END { printf "%s", last }' "$2"
}

# The file of the shape of a dump's graph. The program gives it when no growth is refused.
shape_of() {
    local shape
    shape=$folder/$(cksum <"$1" | tr ' ' -).shape
    [[ -e $shape ]] || {
        { echo INSERT; cat "$1"; printf 'GO\nSHAPE\n'; } | "$program" >"$folder/shown"
        last_answer shape "$folder/shown" >"$shape"
    }
    echo "$shape"
}

# Whether SHAPE fits DUMP in some answers. A run without memory for its start has none.
check() {
    [[ -s $1 ]] || return 0
    last_answer dump "$1" >"$folder/dump"
    last_answer shape "$1" | cmp -s - "$(shape_of "$folder/dump")" || {
        echo "growth $2 of $3: SHAPE isn't that of the graph that DUMP shows" >&2
        cat "$1" >&2
        exit 1
    }
}

# One script, with each growth refused.
refuse_each() {
    local script=$1 number status with=0
    "$program" --sort <"$script" >"$folder/whole"
    for ((number = 1; ; number++)); do
        status=0
        REFUSED=$number LD_PRELOAD=$folder/refuser.so "$program" --sort <"$script" >"$folder/answer" 2>"$folder/errors" 3>"$folder/refused" || status=$?
        [[ -s $folder/refused ]] || break
        [[ $status -eq 1 || $status -eq 5 ]] || cmp -s "$folder/answer" "$folder/whole" || {
            echo "growth $number of $script: status $status" >&2
            exit 1
        }
        [[ $status -ne 1 ]] || with=$((with + 1))
        check "$folder/answer" "$number" "$script"
    done
    printf '%-10s %8d %8d\n' "$(basename "$script")" $((number - 1)) "$with"
}

# All scripts, with one growth refused in each.
try() {
    (cd "$top/crates/tentris_cli" && rt try --fail-alloc "$1" --cases "$folder/scripts" --data alice.nt="$folder/alice.nt" -- --sort) \
        >"$folder/all" 2>"$folder/errors" || {
        cat "$folder/errors" >&2
        exit 1
    }
    for script in "$folder"/scripts/*; do
        awk -v name="== $(basename "$script")" '/^== / { mine = $0 == name; next } mine' "$folder/all" >"$folder/answer"
        check "$folder/answer" "$1" "$script"
    done
}

mkdir "$folder/scripts"
for name in faults loads thousand; do
    { "write_$name"; printf 'SHAPE\nDUMP\nSHAPE\nDUMP\n'; } >"$folder/scripts/$name"
done
write_file >"$folder/alice.nt"
if [[ $# -gt 0 ]]; then
    for number in "$@"; do
        try "$number"
        echo "growth $number refused in each script"
    done
else
    build_refuser
    cd "$folder"
    printf '%-10s %8s %8s\n' script growths refused
    for script in "$folder"/scripts/*; do
        refuse_each "$script"
    done
fi
