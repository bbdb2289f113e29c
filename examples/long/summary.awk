# What was used again in a report: how the plans were got, what each execution cost, and how often each plan ran.
/^by optimum/ { searches++; plan = "" }
/^by (selectivity|cost)/ { ways[$2]++; plan = $5; reuses[plan]++ }
/^kept plan .* new$/ { kept[$3] = spelled; plans++ }
/^evicted plan/ { evictions++ }
/^plan [a-z]/ { spelled = $2 }
/^cost / { cost += $2 / 2^40 }
END {
    printf "%d searches, %d reuses by selectivity, %d by cost\n", searches, ways["selectivity"], ways["cost"]
    printf "%d plans kept, %d evicted; all executions cost %.1f rows\n", plans, evictions, cost
    for (i = 1; i <= plans; i++) printf "plan %d, reused %d times: %s\n", i, reuses[i], kept[i]
}
