#!/usr/bin/env bash
# A load against a plain program: 1,048,576 rows of two columns of whole numbers and two of texts of ten letters.
#
# It makes the file, builds the plain program with `rustc -O`, compares the two lines of report, and then times both in
# turn: processor time (user and system) in seconds, the ratio of the medians, and the memory held at the most.
# `table.sh 9` has nine rounds.
set -eu
cd "$(dirname "$0")"
. ./timing.sh
rounds=${1:-5}
work=$(mktemp -d)
trap 'rm -rf "$work"' EXIT

awk 'BEGIN { print "a,b,c,d"; for (i = 0; i < 1048576; i++) printf "%d,%d,abcdefghij,k%09d\n", i, (i * 643) % 1048576, i }' >"$work/t.csv"
echo "load t t.csv" >"$work/load.scr"
rustc -O -o "$work/plain" table.rs
scr=$(readlink -f ../scr)
cd "$work"
"$scr" run load.scr >proved.txt
./plain t.csv >plain.txt
cmp proved.txt plain.txt

for round in $(seq "$rounds"); do
    echo "proved $(seconds "$scr" run load.scr)  plain $(seconds ./plain t.csv)"
done | tee rounds.txt

compare_medians
if command -v /usr/bin/time >/dev/null; then
    /usr/bin/time -f 'proved holds %M KiB' "$scr" run load.scr >/dev/null
    /usr/bin/time -f 'plain holds %M KiB' ./plain t.csv >/dev/null
fi
