#!/bin/sh
# Times rows on pages of 262,144 bytes, in the proved program `row_figures` and in plain Rust (rows_base.rs, by rustc -O):
# nanoseconds for a value that is read, for a row that is written, and for a row that is copied. Each is the processor's
# time of the quickest of several runs, less that of a run of no rounds.
# Usage: bench/rows.sh [RUNS]
set -eu

here=$(cd "$(dirname "$0")" && pwd)
program=${PROGRAM:-$here/../crates/row_figures/out/row_figures}
runs=${1:-3}

if [ ! -x "$program" ]; then
    echo "no program: cd crates/row_figures && rt run" >&2
    exit 1
fi

folder=$(mktemp -d)
trap 'rm -rf "$folder"' EXIT
rustc --edition 2021 -O -o "$folder/base" "$here/rows_base.rs"

# The processor's least time of a run, in milliseconds.
least() {
    run=0
    while [ "$run" -lt "$runs" ]; do
        ( "$@" > "$folder/out.txt"; times ) | tail -1
        run=$((run + 1))
    done | awk '
        function seconds(time) { split(time, parts, /[ms]/); return parts[1] * 60 + parts[2] }
        { took = seconds($1) + seconds($2); if (NR == 1 || took < best) best = took }
        END { printf "%d", best * 1000 }'
}

# Picoseconds for one thing, of which a round does so many.
each() {
    rounds=$1
    things=$2
    shift 2
    none=$(least "$@" 0)
    some=$(least "$@" "$rounds")
    echo $(((some - none) * 1000000000 / (rounds * things)))
}

# One line: what it is, a round's things, the program's rounds and those of plain Rust, and the word for both.
line() {
    made=$(each "$3" "$2" "$program" "$5")
    plain=$(each "$4" "$2" "$folder/base" "$5")
    echo "$1" "$made" "$plain" | awk '{ printf "%-12s %8.2f ns, plain %8.2f ns: %.2f times\n", $1, $2 / 1000, $3 / 1000, $2 / $3 }'
}

line number 4000 60000 60000 0
line decimal 4000 60000 60000 1
line short-text 4000 60000 60000 2
line long-text 4000 60000 60000 3
line write 50000 100 300 write
line copy 50000 100 300 copy
echo "pages, plain: $(each 300 50000 "$folder/base" pages) ps a row"
