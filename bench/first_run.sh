#!/usr/bin/env bash
# The first run against a plain program: 1,048,576 rows of one whole number, a load and ten runs.
#
# It makes the file, builds the plain program with `rustc -O`, compares the rows of both reports, and then times
# both in turn: processor time (user and system) in seconds, and the ratio of the medians. `first_run.sh 9` has nine rounds.
set -eu
cd "$(dirname "$0")"
. ./timing.sh
rounds=${1:-5}
work=$(mktemp -d)
trap 'rm -rf "$work"' EXIT
rows=1048576

# Each number from 0 to 1,048,575 once, in an order that jumps: the row's number times an odd one.
awk -v n="$rows" 'BEGIN { print "v"; for (i = 0; i < n; i++) print (i * 643) % n }' >"$work/t.csv"

arguments="0 1 100 10000 100000 250000 400000 600000 800000 1000000"
{
    echo "load t t.csv"
    echo "prepare q SELECT v FROM t WHERE v < ?"
    for argument in $arguments; do
        echo "run q $argument"
    done
} >"$work/first.scr"

rustc -O -o "$work/plain" first_run.rs
scr=$(readlink -f ../scr)
cd "$work"
"$scr" run first.scr >proved.txt
# shellcheck disable=SC2086
./plain t.csv $arguments >plain.txt
cmp <(rows_alone proved.txt) <(rows_alone plain.txt)
echo "the rows of the two reports agree: $(wc -c <proved.txt) bytes"

for round in $(seq "$rounds"); do
    proved=$(seconds "$scr" run first.scr)
    # shellcheck disable=SC2086
    plain=$(seconds ./plain t.csv $arguments)
    echo "proved $proved  plain $plain"
done | tee rounds.txt

compare_medians
