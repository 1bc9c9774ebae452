# Reads the rows of the table that figures.awk writes, and writes how the times of the workloads on threads compare: with
# that on one thread, of which a quarter would be perfect on four, and with a map under a lock; those of maps of any place
# with maps of one size; and a fault from C with one from Rattle.
NF > 6 && $2 == "from C" { from_c[$3, $4] = $5; next }
NF > 6 { time[$3, $4] = $5 }

# Of two rows, the one over the other; a dash where one is missing.
function over(one, threads, other, others) {
    if (!((one, threads) in time) || !((other, others) in time) || time[other, others] == 0) return "-"
    return sprintf("%.2f", time[one, threads] / time[other, others])
}

function on_threads(one, other) { return over(one, 1, other, 1) " / " over(one, 2, other, 2) " / " over(one, 4, other, 4) }

END {
    n = split("load pager steady own common", name, " ")
    print ""
    print "How the time of a call in 7 regions compares: on 4 threads with that on 1, where 0.25 is perfect, and on 1 / 2 / 4"
    print "threads with that with one list and on a `BTreeMap` of the areas under a lock:"
    print ""
    print "| Workload | On 4 over 1 | Over one list | Over an RwLock | Over a Mutex |"
    print "|---|---|---|---|---|"
    for (kept = 1; kept >= 0; kept--)
        for (i = 1; i <= n; i++) {
            what = name[i] (kept ? "" : " without a history")
            regions = what ", in 7 regions"
            printf "| %s | %s | %s | %s | %s |\n", what, over(regions, 4, regions, 1), on_threads(regions, what), \
                on_threads(regions, what ", on a BTreeMap under an RwLock"), on_threads(regions, what ", on a BTreeMap under a Mutex")
        }
    print ""
    print "A map of any place takes, over one where all have one size: with two sizes " over("sizes", 1, "places", 1) \
        ", with a hint that is taken " over("hints", 1, "places", 1) ", and where half are remaps that move " \
        over("moves", 1, "places", 1) "."
    print ""
    fault = "a fault in an arena of one's own"
    c = fault ", 7 regions"
    rattle = fault " without a history, 7 regions"
    if ((c, 1) in from_c && (rattle, 1) in time)
        printf "A fault from C takes %.1f ns on 1 thread in one's own arena in 7 regions, from Rattle %d; on 4 threads %.1f and %d.\n", \
            from_c[c, 1], time[rattle, 1], from_c[c, 4], time[rattle, 4]
    else print "A fault from C: not measured."
}
