#!/usr/bin/env bash
# How fast lines are loaded and queries are answered: rows a second, over one INSERT block of generated lines. Where
# sqlite3 is installed, it loads the same lines and answers the same joins in memory, over a table of numbers with three
# covering indexes and a table of terms, and the ratio of the time here to its time is printed: below 1, this program is
# faster. A number of lines may be given as a word.
set -euo pipefail
source "$(dirname "${BASH_SOURCE[0]}")/common.sh"

count=${1:-200000}

# A term of a row, and the number of a predicate, in SQL.
text() { echo "(SELECT text FROM term WHERE id = $1)"; }
predicate() { echo "(SELECT id FROM term WHERE text = '<urn:p:$1>')"; }

iri_lines "$count" >"$folder/lines"
{ echo INSERT; cat "$folder/lines"; echo GO; } >"$folder/script"
cat >"$folder/sql" <<END
.mode ascii
.separator " " "\n"
CREATE TABLE line (s, p, o, dot);
.import $folder/lines line
CREATE TABLE term (id INTEGER PRIMARY KEY, text TEXT UNIQUE);
INSERT INTO term (text) SELECT s FROM line UNION SELECT p FROM line UNION SELECT o FROM line;
CREATE TABLE triple (s INTEGER, p INTEGER, o INTEGER);
INSERT INTO triple SELECT DISTINCT a.id, b.id, c.id
    FROM line JOIN term a ON a.text = line.s JOIN term b ON b.text = line.p JOIN term c ON c.text = line.o;
CREATE INDEX spo ON triple (s, p, o);
CREATE INDEX pos ON triple (p, o, s);
CREATE INDEX osp ON triple (o, s, p);
ANALYZE;
.mode tabs
END

# The seconds of one query behind what stands before it: the query is asked as often as makes up for the noise.
each_of() {
    local before=$1 seconds=$2 query=$3 times=1 with
    shift 3
    while :; do
        cat "$before" >"$folder/more"
        awk -v n="$times" '{ text = text $0 "\n" } END { while (n--) printf "%s", text }' <<<"$query" >>"$folder/more"
        with=$(least_seconds "$folder/more" "$@")
        if awk "BEGIN { exit !($with - $seconds > 0.5 * $seconds || $times >= 100000) }"; then
            awk "BEGIN { printf \"%.7f\", ($with - $seconds) / $times }"
            return
        fi
        times=$((times * 10))
    done
}

# How many rows a query has here; sqlite3 must have as many.
rows_of() {
    local rows
    { cat "$folder/script"; echo "$1"; } | "$program" >"$folder/answer"
    rows=$(sed -n 's/^ok rows //p' "$folder/answer")
    if [[ -n $has_sqlite && $rows != $({ cat "$folder/sql"; echo "$2"; } | sqlite3 :memory: | wc -l) ]]; then
        echo "not the same rows: $1" >&2
        exit 1
    fi
    echo "$rows"
}

# Measures a query, given in SPARQL and in SQL.
measure() {
    local name=$1 query rows here there
    query=$(printf 'QUERY\n%s\nGO' "$2")
    rows=$(rows_of "$query" "$3")
    here=$(each_of "$folder/script" "$load" "$query" "$program")
    printf '%-20s %10d %12.6f %12.0f' "$name" "$rows" "$here" "$(ratio "$rows" "$here")"
    if [[ -n $has_sqlite ]]; then
        there=$(each_of "$folder/sql" "$load_sql" "$3" sqlite3 :memory:)
        printf ' %12.6f %8.2f' "$there" "$(ratio "$here" "$there")"
    fi
    printf '\n'
}

load=$(least_seconds "$folder/script" "$program")
has_sqlite=$(command -v sqlite3 || true)
[[ -z $has_sqlite ]] || load_sql=$(least_seconds "$folder/sql" sqlite3 :memory:)

printf '%-20s %10s %12s %12s %12s %8s\n' query rows seconds rows/s sqlite3 ratio
printf '%-20s %10d %12.6f %12.0f' load "$count" "$load" "$(ratio "$count" "$load")"
[[ -z $has_sqlite ]] || printf ' %12.6f %8.2f' "$load_sql" "$(ratio "$load" "$load_sql")"
printf '\n'
measure triangle \
    'SELECT * { ?a <urn:p:0> ?b . ?b <urn:p:1> ?c . ?c <urn:p:2> ?a }' \
    "SELECT $(text x.s), $(text y.s), $(text z.s) FROM triple x, triple y, triple z
        WHERE x.p = $(predicate 0) AND y.p = $(predicate 1) AND z.p = $(predicate 2)
        AND y.s = x.o AND z.s = y.o AND z.o = x.s;"
measure star \
    'SELECT * { ?x <urn:p:0> ?a ; <urn:p:1> ?b ; <urn:p:2> ?c }' \
    "SELECT $(text x.s), $(text x.o), $(text y.o), $(text z.o) FROM triple x, triple y, triple z
        WHERE x.p = $(predicate 0) AND y.p = $(predicate 1) AND z.p = $(predicate 2) AND y.s = x.s AND z.s = x.s;"
measure path \
    'SELECT ?a ?d { ?a <urn:p:0> ?b . ?b <urn:p:1> ?c . ?c <urn:p:2> ?d }' \
    "SELECT $(text x.s), $(text z.o) FROM triple x, triple y, triple z
        WHERE x.p = $(predicate 0) AND y.p = $(predicate 1) AND z.p = $(predicate 2) AND y.s = x.o AND z.s = y.o;"
measure scan \
    'SELECT * { ?s ?p ?o }' \
    "SELECT $(text s), $(text p), $(text o) FROM triple;"
measure point \
    'SELECT * { <urn:n:000077> ?p ?o }' \
    "SELECT $(text p), $(text o) FROM triple WHERE s = (SELECT id FROM term WHERE text = '<urn:n:000077>');"
measure 'distinct' \
    'SELECT DISTINCT ?o { ?s <urn:p:1> ?o }' \
    "SELECT $(text o) FROM (SELECT DISTINCT o FROM triple WHERE p = $(predicate 1));"
measure 'distinct, through' \
    'SELECT DISTINCT ?a ?b { ?a <urn:p:0> ?x . ?b <urn:p:1> ?x }' \
    "SELECT $(text a), $(text b) FROM (SELECT DISTINCT x.s AS a, y.s AS b FROM triple x, triple y
        WHERE x.p = $(predicate 0) AND y.p = $(predicate 1) AND y.o = x.o);"
