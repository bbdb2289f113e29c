#!/usr/bin/env bash
# Verifying a report against making it: 100,000 runs on a table of 1,000 rows with an index, each of ten rows; and a
# report of 256 MiB, as many runs as it takes, with the most memory that its verification holds.
#
# It makes the scripts, makes and verifies each report once, and then times both in turn: processor time (user and system)
# in seconds, and the ratio of the medians. `verify.sh 9` has nine rounds. The great report is verified once.
set -eu
cd "$(dirname "$0")"
. ./timing.sh
rounds=${1:-5}
work=$(mktemp -d)
trap 'rm -rf "$work"' EXIT
scr=$(readlink -f ../scr)
cd "$work"

# Each number from 1 to 1000 once, in an order that jumps.
awk 'BEGIN { print "c0"; for (i = 0; i < 1000; i++) print (i * 643) % 1000 + 1 }' >t.csv

# script RUNS: loads and indexes the table, and runs a range of ten numbers so often.
script() {
    awk -v runs="$1" 'BEGIN {
        print "load t t.csv"
        print "index t c0"
        print "prepare q SELECT c0 FROM t WHERE c0 BETWEEN ? AND ?"
        for (i = 0; i < runs; i++) { low = (i * 7919) % 1000; print "run q " low " " low + 9 }
    }'
}

script 100000 >runs.scr
"$scr" run runs.scr >report.txt
echo "the report of 100,000 runs: $(wc -c <report.txt) bytes; $("$scr" verify runs.scr report.txt)"
for round in $(seq "$rounds"); do
    echo "proved $(seconds "$scr" verify runs.scr report.txt)  plain $(seconds "$scr" run runs.scr)"
done | tee rounds.txt
echo "verifying (proved) against making (plain):"
compare_medians

# The most runs whose report has at most 256 MiB.
limit=268435456
size=$(wc -c <report.txt)
runs=$((limit / (size / 100000 + 1)))
script "$runs" >great.scr
"$scr" run great.scr >great.txt
while [ "$(wc -c <great.txt)" -gt "$limit" ]; do
    runs=$((runs - 2000))
    script "$runs" >great.scr
    "$scr" run great.scr >great.txt
done
echo "a report of $runs runs: $(wc -c <great.txt) bytes"
python3 - "$scr" <<'PYTHON'
import resource, subprocess, sys
told = subprocess.run([sys.argv[1], "verify", "great.scr", "great.txt"], stdout=subprocess.PIPE, check=True)
used = resource.getrusage(resource.RUSAGE_CHILDREN)
print(told.stdout.decode().strip())
print(f"{used.ru_utime + used.ru_stime:.2f} seconds, at most {used.ru_maxrss // 1024} MiB")
PYTHON
