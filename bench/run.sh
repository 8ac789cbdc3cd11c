#!/bin/sh
# Times the proved program over a table of a million rows beside sqlite3, where it is installed, and beside a plain Rust
# program (queries_base.rs, by rustc -O), where rustc is: loading, a filter, and an order with a limit. The table has an
# INTEGER, a DECIMAL(12,2) and a text of 14 bytes. Each figure is the processor's seconds of the quickest of several runs;
# a query's is that of the script that loads and asks, less that of the script that only loads. Then the same program again
# at a limit of a quarter of the table. The results of the programs are compared with each other.
# Usage: bench/run.sh [ROWS] [RUNS]
set -eu

here=$(cd "$(dirname "$0")" && pwd)
program=${PROGRAM:-$here/../crates/oocsql/out/oocsql}
rows=${1:-1000000}
runs=${2:-3}
ample=134217728

if [ ! -x "$program" ]; then
    echo "no program: make program" >&2
    exit 1
fi

folder=$(mktemp -d)
trap 'rm -rf "$folder"' EXIT
cp "$program" "$folder/oocsql"
chmod +x "$folder/oocsql"
cd "$folder"

awk -v rows="$rows" 'BEGIN {
    print "id,amount,name"
    seed = 1
    for (i = 0; i < rows; i++) {
        seed = (seed * 69069 + 12345) % 4294967296
        cents = int(seed / 16) % 100000000
        printf "%d,%d.%02d,name%010d\n", (i * 7919) % rows, int(cents / 100), cents % 100, int(seed / 8)
    }
}' > t.csv

table="CREATE TABLE t (id INTEGER, amount DECIMAL(12,2), name VARCHAR);"
filter="SELECT id, name FROM t WHERE amount < 50000.00;"
order="SELECT id, amount, name FROM t ORDER BY amount DESC, id LIMIT 1000;"
copy="COPY t FROM 't.csv';"
echo "$table $copy" > load.sql
echo "$table $copy $filter" > filter.sql
echo "$table $copy $order" > order.sql

ours() {
    ./oocsql --limit "$1" "$2.sql"
}

# sqlite3 in memory, with the same types.
sqlite() {
    {
        echo "$table"
        echo ".mode csv"
        echo ".import --skip 1 t.csv t"
        echo ".separator ,"
        [ "$1" = filter ] && echo "$filter"
        [ "$1" = order ] && echo "SELECT id, printf('%.2f', amount), name FROM t ORDER BY amount DESC, id LIMIT 1000;"
        true
    } | sqlite3 :memory:
}

plain() {
    ./plain "$1"
}

# The processor's least time of a call, in milliseconds.
least() {
    run=0
    while [ "$run" -lt "$runs" ]; do
        ( "$@" > out.txt; times ) | tail -1
        run=$((run + 1))
    done | awk '
        function seconds(time) { split(time, parts, /[ms]/); return parts[1] * 60 + parts[2] }
        { took = seconds($1) + seconds($2); if (NR == 1 || took < best) best = took }
        END { printf "%d", best * 1000 }'
}

# The lines of a result without the names; sqlite3 ends its lines with CR LF.
result() {
    "$@" | tr -d '\r' | sed -e '/^$/d' -e '/^id,/d'
}

# Whether another program gives the same results.
check() {
    for query in filter order; do
        result ours "$ample" "$query" | { [ "$query" = filter ] && sort || cat; } > ours.txt
        result "$@" "$query" | { [ "$query" = filter ] && sort || cat; } > other.txt
        cmp -s ours.txt other.txt || { echo "$1 gives another result: $query" >&2; exit 1; }
    done
}

# Load, filter and order, in milliseconds.
figures() {
    load=$(least "$@" load)
    echo "$load $(($(least "$@" filter) - load)) $(($(least "$@" order) - load))"
}

# One line of the table, and the ratios to what comes first.
line() {
    name=$1
    shift
    echo "$name" "$@" | awk '{ printf "%-22s %8.2f %8.2f %8.2f\n", $1, $2 / 1000, $3 / 1000, $4 / 1000 }'
}

ratio() {
    echo "$@" | awk '{ printf "%-22s", $1; for (k = 2; k <= 4; k++) printf " %8.2f", $k / ($(k + 3) > 0 ? $(k + 3) : 1); print "" }'
}

bytes=$(wc -c < t.csv)
quarter=$((bytes * 5 / 8 / 262144 * 262144))
echo "$rows rows, $bytes bytes; processor seconds"
echo "                           load   filter    order"
mine=$(figures ours "$ample")
line oocsql $mine
small=$(figures ours "$quarter")
line "oocsql,small-limit" $small
if command -v sqlite3 > /dev/null; then
    check sqlite
    peer=$(figures sqlite)
    line sqlite3 $peer
fi
if command -v rustc > /dev/null; then
    rustc --edition 2021 -O -o plain "$here/queries_base.rs"
    check plain
    base=$(figures plain)
    line plain-rust $base
fi
echo "ratios"
ratio small/ample $small $mine
[ -n "${peer:-}" ] && ratio oocsql/sqlite3 $mine $peer
[ -n "${base:-}" ] && ratio oocsql/plain-rust $mine $base
exit 0
