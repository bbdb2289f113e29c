#!/usr/bin/env bash
# Hostile sizes: time and memory at the limits. For each job its status, the last line that it wrote, the processor time
# (user and system) in seconds, and the memory held at the most in MiB.
#
# `hostile.sh` does all, `hostile.sh columns cursors` these two. It needs GNU time as /usr/bin/time, 1 GiB of disk, and
# some minutes. No job gets more than 16 GiB of address space, or as many as GIBS says.
set -eu # and no pipefail: `yes` and `seq` are cut off by `head`
cd "$(dirname "$0")"
scr=$(readlink -f ../scr)
work=$(mktemp -d)
trap 'rm -rf "$work"' EXIT
cd "$work"
[ -x /usr/bin/time ] || { echo "hostile.sh: /usr/bin/time isn't installed"; exit 1; }
"$scr" run none.scr 2>/dev/null || true # builds the program, where it isn't there

# measure WHAT WORD ..: the program with these words.
measure() {
    local what=$1 status=0 last
    shift
    (
        ulimit -v $((${GIBS:-16} << 20))
        exec /usr/bin/time -o used.txt -f '%U %S %M' "$scr" "$@" >report.txt 2>error.txt
    ) || status=$?
    last=$(tail -qn 1 error.txt report.txt | tail -1 | cut -c1-50)
    tail -1 used.txt | awk -v what="$what" -v status="$status" -v last="$last" \
        '{ printf "%-16s status %d  %7.2f s  %6.0f MiB  %s\n", what, status, $1 + $2, $3 / 1024, last }'
}

# again TEXT BYTES: the text, as often as the bytes hold it.
again() { yes "$1" | head -n $(($2 / ${#1})) | tr -d '\n'; }

# filled HEADER LINE ROWS: a table whose rows are one line, as often as 64 MiB hold it, and ROWS times at most.
filled() {
    local fit=$(((67108864 - ${#1} - 1) / (${#2} + 1)))
    { echo "$1"; yes "$2" | head -n $((fit < $3 ? fit : $3)); } >t.csv
    echo "load t t.csv" >job.scr
}

job_one_column() {
    filled v "$(head -c 62 /dev/zero | tr '\0' x)" 1048576
    measure one_column run job.scr
}
job_columns() {
    filled "$(seq -s, 64)" "$(yes 123456789012345 | head -64 | paste -sd,)" 65536
    measure columns run job.scr
}
job_quoted_cell() {
    { printf 'v\n"'; head -c $((67108864 - 10)) /dev/zero | tr '\0' 'x'; printf '"\n'; } >t.csv
    echo "load t t.csv" >job.scr
    measure quoted_cell run job.scr
}
job_empty_lines() { head -c 16777216 /dev/zero | tr '\0' '\n' >job.scr; measure empty_lines run job.scr; }
job_one_line() { head -c 16777216 /dev/zero | tr '\0' 'x' >job.scr; measure one_line run job.scr; }
job_prepares() {
    printf 'v\n1\n' >t.csv
    {
        echo "load t t.csv"
        seq 1000000 | sed 's/.*/prepare p& SELECT v FROM t WHERE v < ?/' | head -c 16777000 | sed '$d'
    } >job.scr
    measure prepares run job.scr
}
# Statements on one line of nearly 16 MiB: an IN of 8,000,000 operands, and as many places.
job_operands() {
    printf 'v\n1\n' >t.csv
    {
        printf 'load t t.csv\nprepare q SELECT v FROM t WHERE v IN (1'
        again ',1' 16000000
        echo ')'
    } >job.scr
    measure operands run job.scr
}
job_places() {
    printf 'v\n1\n' >t.csv
    { printf 'load t t.csv\nprepare q SELECT v FROM t'; again ',t' 16000000; echo; } >job.scr
    measure places run job.scr
}
# 40,000 places with aliases that differ: each is compared with all before it.
job_aliases() {
    printf 'v\n1\n' >t.csv
    {
        printf 'load t t.csv\nprepare q SELECT v FROM t'
        seq 40000 | sed 's/.*/,t a&/' | tr -d '\n'
        echo
    } >job.scr
    measure aliases run job.scr
}
# 4,096 anchors on each of 16 statements: at lambda 1 each run searches, and is kept as an anchor. With STATEMENTS=256 the
# script is 14 MiB.
job_anchors() {
    { echo v,g; seq 20000 | sed 's/$/,1/'; } >t.csv
    {
        echo "load t t.csv"
        echo "index t v"
        for statement in $(seq "${STATEMENTS:-16}"); do
            echo "prepare p$statement SELECT g, COUNT(*) FROM t WHERE v < ? GROUP BY g"
            seq -f "run p$statement %.0f" 2 4097
        done
    } >job.scr
    measure anchors run job.scr --lambda 1
}
job_cursors() {
    { echo v; seq 1000000; } >t.csv
    {
        echo "load t t.csv"
        echo "prepare q SELECT v FROM t"
        seq 16 | sed 's/.*/cursor c& q/'
        seq 16 | sed 's/.*/fetch c& 1/'
    } >job.scr
    measure cursors run job.scr
}


# Reports of nearly 256 MiB, for a script of three lines.

# script_of_three: its one execution is by the line 3.
script_of_three() {
    printf 'v\n1\n5\n12\n' >t.csv
    printf 'load t t.csv\nprepare q SELECT v FROM t WHERE v < ?\nrun q 10\n' >job.scr
}

# certified NAME: verifies a report whose one block has what comes in as its certificate.
certified() {
    script_of_three
    {
        printf '3 ran q execution 1\nplan rows(seq(t))\ncost 3298534883328\ncert '
        cat
        printf '\nend 0\n'
    } >claims.txt
    measure "$1" verify job.scr claims.txt
}

job_verify_deep() { again '[' 268435300 | certified verify_deep; }
job_verify_flat() { { printf '['; again '0,' 268435300; printf '0]'; } | certified verify_flat; }
job_verify_objects() {
    { printf '['; again '{"":0},' 268435300; printf '0]'; } | certified verify_objects
}
job_verify_cells() {
    {
        printf '{"kind":"optimum","least":"3298534883328","table":['
        again '{"any":"1","set":1,"sorted":null},' 268435200
        printf '{"any":"1","set":1,"sorted":null}]}'
    } | certified verify_cells
}
job_verify_line() {
    script_of_three
    again 'xxxxxxxx' 268435456 >claims.txt
    measure verify_line verify job.scr claims.txt
}
# The shortest line that begins an item, and the shortest that is one.
job_verify_heads() {
    script_of_three
    yes '1 ran' | head -c 268435452 >claims.txt
    measure verify_heads verify job.scr claims.txt
}
job_verify_too_large() {
    script_of_three
    yes '1 refused 12 too many rows' | head -c 268435449 >claims.txt
    measure verify_too_large verify job.scr claims.txt
}

for job in one_column columns quoted_cell empty_lines one_line prepares operands places aliases anchors cursors \
    verify_deep verify_flat verify_objects verify_cells verify_line verify_heads verify_too_large; do
    case " $* " in
        "  " | *" $job "*) "job_$job"; rm -f t.csv job.scr claims.txt report.txt ;;
    esac
done
