# Reads crates.txt, and then what `bench/figures sample` noted (gate_time.awk has its form), and says how long that gate
# took, and how long its checks take by list scheduling: a crate's proof waits for those of all crates below it, its tests
# and its edits for its own proof; of what may begin, that with the longest chain above it goes first, on the first
# processor that is free. `-v on=4` are the processors, and `-v hertz=` the ticks of a second.
FILENAME == ARGV[1] {
    sub(/#.*/, "")
    if (split($0, part, ":") > 1) { split(part[1], name, " "); uses[name[1]] = part[2] }
    next
}
$1 == "whole" { commit = $2; took = $3; processors = $4; speed = $5; machine = $6; next }
$2 == "" || $2 ~ /[^a-z0-9_]/ || $1 == "programs" { next }
{ time[$2, $1] += $3 / hertz / 60; crates[$2] }

# The minutes of the longest chain that begins with this crate's proof, and the crate that goes on with it.
function chain(crate,    above, last, most, one) {
    if (crate in longest) return longest[crate]
    most = last = time[crate, "tests"] > time[crate, "edits"] ? time[crate, "tests"] + 0 : time[crate, "edits"] + 0
    for (above in crates)
        if ((" " uses[above] " ") ~ (" " crate " ") && (one = chain(above)) > most) { most = one; next_of[crate] = above }
    return longest[crate] = time[crate, "proofs"] + most
}

# When all crates below this one are proved, or -1 while one isn't.
function ready_at(crate,    list, n, i, at) {
    n = split(uses[crate], list, " ")
    for (i = 1; i <= n; i++) {
        if (!(list[i] in crates)) continue
        if (!(list[i] in proved)) return -1
        if (proved[list[i]] > at) at = proved[list[i]]
    }
    return at + 0
}

END {
    for (crate in crates) {
        if (chain(crate) > longest[most]) most = crate
        wait[crate, "proofs"] = longest[crate]
    }
    for (p = 1; p <= on; p++) free[p] = 0
    for (;;) {
        first = 1
        for (p = 2; p <= on; p++) if (free[p] < free[first]) first = p
        # Of what may begin when that processor is free, the one with the longest chain; else what may begin next.
        best = ""; soonest = -1
        for (key in wait) {
            split(key, of, SUBSEP)
            at = of[2] == "proofs" ? ready_at(of[1]) : proved[of[1]]
            if (at < 0) continue
            if (at < free[first]) at = free[first]
            if (soonest < 0 || at < soonest || (at == soonest && wait[key] > wait[best])) { soonest = at; best = key }
        }
        if (best == "") break
        split(best, of, SUBSEP)
        delete wait[best]
        free[first] = soonest + time[of[1], of[2]]
        if (free[first] > end) end = free[first]
        sum += time[of[1], of[2]]
        if (of[2] != "proofs") continue
        proved[of[1]] = free[first]
        for (work in works) if ((of[1], work) in time) wait[of[1], work] = time[of[1], work]
    }
    if (took) printf "The gate of commit %s took %.0f minutes on %d processors (%s), where a check of the kit's template takes %.1f seconds. ",
        commit, took / 60, processors, machine, speed
    printf "By list scheduling its %.0f processor minutes take %.0f on %d processors. The longest chain takes %.0f:", sum, end, on, longest[most]
    for (crate = most; crate != ""; crate = next_of[crate]) printf "%s `%s`", (crate == most ? "" : ","), crate
    print "."
}
BEGIN { works["tests"]; works["edits"] }
