#!/usr/bin/env bash
# Operators, counts, indexes, loads and result shapes against a plain program, each as often as its line says.
#
# It builds the plain program with `rustc -O`, compares what the two print, and then times both in turn: processor time (user
# and system) of so many rounds less that of no round, divided by the rounds, in microseconds, and the ratio of the medians.
# `operators.sh 9` has nine turns; `operators.sh 5 join sort` measures these two. The proved program is the one that
# `rt run` leaves in `crates/bench_operators/out`.
set -eu
cd "$(dirname "$0")"
. ./timing.sh
turns=${1:-5}
[ $# -gt 0 ] && shift
work=$(mktemp -d)
trap 'rm -rf "$work"' EXIT
rustc -O -o "$work/plain" operators.rs
proved=$(readlink -f ../crates/bench_operators/out/bench_operators)
cd "$work"

# Microseconds of one round.
round() {
    awk -v all="$(seconds "$1" "$2" "$3")" -v none="$(seconds "$1" "$2" 0)" -v rounds="$3" \
        'BEGIN { printf "%.4f\n", 1000000 * (all - none) / rounds }'
}

measure() {
    "$proved" "$1" 1 >proved.txt
    ./plain "$1" 1 >plain.txt
    cmp proved.txt plain.txt
    for turn in $(seq "$turns"); do
        echo "proved $(round "$proved" "$1" "$2")  plain $(round ./plain "$1" "$2")"
    done >rounds.txt
    echo "$1: $(compare_medians)"
}

while read -r what rounds; do
    case " $* " in
        "  " | *" $what "*) measure "$what" "$rounds" ;;
    esac
done <<'END'
join 200
pull 200
hash_groups 5
pull_hash_groups 5
probe_groups 5
pull_probe_groups 5
vector 5000
vector_by_index 1000000
index 10
load 5
scan 100
count 200
all 50
many_groups 3
few_groups 20
sort 10
END
