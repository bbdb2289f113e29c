#!/usr/bin/env bash
# What the bound does to the plan cache: the demo and a chain of five tables, at lambda 1.01, 2 and 4.
#
# It makes the files, and tells for each lambda the processor time (user and system, the median of the rounds, in seconds),
# and how the runs got their plans. `plans.sh 9` has nine rounds.
set -eu
cd "$(dirname "$0")"
. ./timing.sh
rounds=${1:-5}
work=$(mktemp -d)
trap 'rm -rf "$work"' EXIT

# Five tables of 1,000 rows: a key, the key of a row in the next table, and a number to choose by.
for table in a b c d e; do
    awk -v step="$(printf '%d' "'$table")" 'BEGIN {
        print "k,n,v"
        for (i = 1; i <= 1000; i++) printf "%d,%d,%d\n", i, (i * step) % 1000 + 1, (i * 643) % 1000 + 1
    }' >"$work/$table.csv"
done
awk 'BEGIN {
    split("a b c d e", names, " ")
    for (i = 1; i <= 5; i++) print "load " names[i] " " names[i] ".csv\nindex " names[i] " k\nindex " names[i] " v"
    print "prepare q SELECT e.v FROM a, b, c, d, e WHERE a.n = b.k AND b.n = c.k AND c.n = d.k AND d.n = e.k" \
        " AND a.v < ? AND e.v < ?"
    x = 1
    for (i = 0; i < 2000; i++) {
        x = (x * 1103515245 + 12345) % 2147483648; first = int(x / 65536) % 50 + 2
        x = (x * 1103515245 + 12345) % 2147483648; last = int(x / 65536) % 1000 + 2
        print "run q " first " " last
    }
}' >"$work/chain.scr"

scr=$(readlink -f ../scr)
cd "$work"

# The median of numbers, a line each.
middle() {
    sort -n | awk '{ all[NR] = $1 } END { print all[int((NR + 1) / 2)] }'
}


for lambda in 101/100 2 4; do
    time=$(for round in $(seq "$rounds"); do seconds "$scr" demo 1000 --lambda "$lambda" --keep 1; done | middle)
    echo "demo 1000, lambda $lambda: $time"
    "$scr" demo 1000 --lambda "$lambda" --keep 1 | tr '\n' ' '
    echo
    time=$(for round in $(seq "$rounds"); do seconds "$scr" run chain.scr --lambda "$lambda" --keep 1; done | middle)
    "$scr" run chain.scr --lambda "$lambda" --keep 1 >report.txt
    echo "chain, lambda $lambda: $time, by optimum $(grep -c '^by optimum' report.txt)," \
        "by selectivity $(grep -c '^by selectivity' report.txt || true), by cost $(grep -c '^by cost' report.txt || true)"
done
