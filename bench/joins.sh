#!/usr/bin/env bash
# Joins against a plain program. `sales`: customers, orders and items (1,500, 15,000 and 60,000 rows), indexed, and twenty
# runs of a join of the three with groups. `zones`: three tables of drawn numbers (500, 5,000 and 20,000 rows), indexed,
# and two hundred runs.
#
# It makes the files, builds the plain program with `rustc -O`, compares the row lines, and then times both in turn, from
# the CSV files to the rows: processor time (user and system) in seconds, and the ratio of the medians. `joins.sh 9` has
# nine rounds. Where `python3` has the module sqlite3, SQLite in memory answers the twenty runs of `sales` too.
set -eu
cd "$(dirname "$0")"
. ./timing.sh
rounds=${1:-5}
here=$PWD
work=$(mktemp -d)
trap 'rm -rf "$work"' EXIT

awk 'BEGIN { print "id,region"; for (k = 1; k <= 1500; k++) print k ",r" k % 5 }' >"$work/customers.csv"
awk 'BEGIN { print "id,cid,day"; for (k = 1; k <= 15000; k++) print k "," (7 * k) % 1500 + 1 "," k % 1000 }' >"$work/orders.csv"
awk 'BEGIN { print "oid,qty,ship"; for (k = 1; k <= 60000; k++) print int((k - 1) / 4) + 1 "," k % 10 + 1 "," k % 1000 }' >"$work/items.csv"
{
    echo 'load customers customers.csv
load orders orders.csv
load items items.csv
index orders day
index orders id
index items oid
prepare q SELECT c.region, COUNT(*), SUM(i.qty) FROM customers c JOIN orders o ON c.id = o.cid JOIN items i ON o.id = i.oid WHERE o.day BETWEEN ? AND ? AND i.ship BETWEEN ? AND ? GROUP BY c.region ORDER BY c.region'
    awk 'BEGIN { for (i = 0; i < 20; i++) print "run q " 10 * i " " 999 - 10 * i " " 5 * i " " 999 - 5 * i }'
} >"$work/sales.scr"

# Numbers drawn by a linear congruential generator, in 31 bits.
x=1
draw() {
    x=$(((1103515245 * x + 12345) % 2147483648))
    drawn=$((x / 65536 % $1))
}
{
    echo "id,zone"
    for id in $(seq 500); do draw 10; echo "$id,$drawn"; done
} >"$work/a.csv"
{
    echo "id,aid,day"
    for id in $(seq 5000); do draw 500; aid=$((drawn + 1)); draw 1000; echo "$id,$aid,$drawn"; done
} >"$work/b.csv"
{
    echo "bid,qty"
    for _ in $(seq 20000); do draw 5000; bid=$((drawn + 1)); draw 100; echo "$bid,$drawn"; done
} >"$work/c.csv"
{
    echo 'load a a.csv
load b b.csv
load c c.csv
index b day
index b id
index c bid
index c qty
prepare q SELECT a.zone, COUNT(*), SUM(c.qty) FROM a, b, c WHERE a.id = b.aid AND b.id = c.bid AND b.day BETWEEN ? AND ? AND c.qty < ? GROUP BY a.zone ORDER BY a.zone'
    for _ in $(seq 200); do
        draw 1000; y=$drawn; draw 1000; z=$drawn; draw 100
        echo "run q $((y < z ? y : z)) $((y < z ? z : y)) $((drawn + 1))"
    done
} >"$work/zones.scr"

rustc -O -o "$work/plain" joins.rs
scr=$(readlink -f ../scr)
cd "$work"

for script in sales zones; do
    "$scr" run "$script.scr" | grep -E '^(row|end) ' >proved.txt
    ./plain "$script" "$script.scr" >plain.txt
    cmp proved.txt plain.txt
    echo "$script: the row lines agree: $(wc -l <proved.txt) lines"
    for round in $(seq "$rounds"); do
        echo "proved $(seconds "$scr" run "$script.scr")  plain $(seconds ./plain "$script" "$script.scr")"
    done | tee rounds.txt
    compare_medians
done
if python3 -c 'import sqlite3' 2>/dev/null; then
    python3 "$here/joins_sqlite.py" sales.scr
else
    echo "sqlite: left out, since python3 has no module sqlite3"
fi
