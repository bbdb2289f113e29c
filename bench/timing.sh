# Timing a proved program against a plain one, for the benchmarks beside this file to source. The working folder is the
# benchmark's own.

# The shell's own `time`: user and system seconds of one run.
TIMEFORMAT='%U %S'
seconds() {
    { time "$@" >/dev/null; } 2>&1 | awk '{ print $1 + $2 }'
}

# A report without what executions tell of their plans: the plain programs know no cache.
rows_alone() {
    grep -vE '^(plan|cost|by|evicted|kept|cert) |^at( |$)' "$1"
}

# The median of a column of the rounds: other work on the machine makes single rounds slow.
median() {
    awk -v column="$1" '{ print $column }' rounds.txt | sort -n | awk '{ all[NR] = $1 } END { print all[int((NR + 1) / 2)] }'
}

# The medians of the rounds, which are lines of the form `proved S  plain S`, and their ratio.
compare_medians() {
    awk -v proved="$(median 2)" -v plain="$(median 4)" \
        'BEGIN { printf "median: proved %.3f  plain %.3f  ratio %.2f\n", proved, plain, proved / plain }'
}
