#!/usr/bin/env bash
# Many runs against a plain program: 100,000 runs on a table of 1,000 rows with an index, each of ten rows; as many that
# find from 1 to 100 rows; and 10 runs with three predicates over 1,048,576 rows.
#
# It makes the files, builds the plain program with `rustc -O`, compares the rows of both reports, tells how the runs got
# their plans, and then times both in turn: processor time (user and system) in seconds, and the ratio of the medians. `runs.sh 9` has nine rounds.
set -eu
cd "$(dirname "$0")"
. ./timing.sh
rounds=${1:-5}
work=$(mktemp -d)
trap 'rm -rf "$work"' EXIT

# Each number from 1 to 1000 once; and three columns of numbers below 2^20, each in an order of its own.
awk 'BEGIN { print "c0"; for (i = 0; i < 1000; i++) print (i * 643) % 1000 + 1 }' >"$work/small.csv"
awk -v n=1048576 'BEGIN { print "c0,c1,c2"; for (i = 0; i < n; i++) printf "%d,%d,%d\n", (i * 643) % n, (i * 40503) % n, (i * 7919) % n }' >"$work/large.csv"
awk 'BEGIN {
    print "load t small.csv"
    print "index t c0"
    print "prepare q SELECT c0 FROM t WHERE c0 BETWEEN ? AND ?"
    for (i = 0; i < 100000; i++) { low = (i * 7919) % 1000; print "run q " low " " low + 9 }
}' >"$work/small.scr"
awk 'BEGIN {
    print "load t small.csv"
    print "index t c0"
    print "prepare q SELECT c0 FROM t WHERE c0 BETWEEN ? AND ?"
    for (i = 0; i < 100000; i++) { low = (i * 7919) % 900; print "run q " low " " low + (i * 643) % 100 }
}' >"$work/mixed.scr"
awk 'BEGIN {
    print "load t large.csv"
    print "prepare q SELECT c0 FROM t WHERE c0 < ? AND c1 >= ? AND c2 BETWEEN ? AND ?"
    for (i = 1; i <= 10; i++) print "run q " i * 100000 " " 500000 " " i * 10000 " " i * 90000
}' >"$work/large.scr"

rustc -O -o "$work/plain" runs.rs
scr=$(readlink -f ../scr)
cd "$work"

cp small.csv mixed.csv
for size in small mixed large; do
    "$scr" run "$size.scr" >proved.txt
    ./plain "$size.csv" "$size.scr" >plain.txt
    cmp <(rows_alone proved.txt) <(rows_alone plain.txt)
    echo "$size: the rows of the two reports agree: $(wc -c <proved.txt) bytes"
    echo "$size: by optimum $(grep -c '^by optimum' proved.txt), by selectivity $(grep -c '^by selectivity' proved.txt)," \
        "by cost $(grep -c '^by cost' proved.txt || true)"
    for round in $(seq "$rounds"); do
        echo "proved $(seconds "$scr" run "$size.scr")  plain $(seconds ./plain "$size.csv" "$size.scr")"
    done | tee rounds.txt
    compare_medians
done
