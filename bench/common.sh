# What the benchmarks share. It is read by them and not run.
export LC_ALL=C

top=$(cd "$(dirname "${BASH_SOURCE[0]}")/.." && pwd -P)
# builds what is missing, so that no build is measured
"$top/tentris" </dev/null
program=$top/crates/tentris_cli/out/tentris_cli
folder=$(mktemp -d)
trap 'rm -rf "$folder"' EXIT

# So many lines of 41 bytes, without their ends. Line k of n, from 0: subject (7k + 1) mod m, predicate k mod 3 and
# object (k * k * k + k + 5) div 8 mod m, where m = n div 4 + 2. So there are a quarter as many nodes as lines, and
# about a quarter of the lines repeat an earlier one.
iri_lines() {
    awk -v n="$1" 'BEGIN {
        m = int(n / 4) + 2
        # awk counts exactly up to 2^53 alone; a product taken mod 8m keeps what its eighth is mod m
        w = 8 * m
        for (k = 0; k < n; k++) {
            c = ((k * k) % w * (k % w) + k + 5) % w
            printf "<urn:n:%06d> <urn:p:%d> <urn:n:%06d> .\n", (7 * k + 1) % m, k % 3, int(c / 8)
        }
    }'
}

# So many lines of 170 bytes, without their ends: literals with escapes, each second one with a tag, the others with
# a datatype.
literal_lines() {
    awk -v n="$1" 'BEGIN {
        for (k = 0; k < n; k++) {
            kind = k % 2 ? "@en-GB" : "^^<http://www.w3.org/2001/XMLSchema#token>"
            front = sprintf("<http://example.org/people/%06d> <http://xmlns.com/foaf/0.1/name> ", k)
            form = sprintf("number %06d \\\"quoted\\\" \\u00E9\\t\\\\", k)
            while (length(front) + length(form) + length(kind) < 166)
                form = form substr("abcdefgh", k % 8 + 1, 1)
            printf "%s\"%s\"%s .\n", front, form, kind
        }
    }'
}

# a quotient with four decimals
ratio() {
    awk "BEGIN { printf \"%.4f\", ($1) / ($2) }"
}

# The seconds of processor time of one run of a command over a file as its standard input. They say more than those of
# a clock where other programs run too. A run that fails ends the benchmark.
seconds_of() {
    local file=$1 TIMEFORMAT='%3U %3S'
    shift
    { time "$@" <"$file" >"$folder/answer" 2>"$folder/errors"; } 2>"$folder/times" || {
        echo "failed: $*" >&2
        tail -n 3 "$folder/answer" "$folder/errors" >&2
        exit 1
    }
    awk '{ printf "%.3f\n", $1 + $2 }' "$folder/times"
}

# the least of three such runs
least_seconds() {
    local run
    for run in 1 2 3; do
        seconds_of "$@"
    done | sort -g | head -n 1
}
