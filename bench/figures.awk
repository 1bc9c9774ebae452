# Reads lines `SUBJECT<tab>WHAT: .. N ns .., P percent of ..` of several runs, and writes one row for each subject and
# workload: the least figure, what it is compared with in that run, and the least and the greatest figure of all runs.
{
    split_at = index($2, ": ")
    if (!split_at || !match($2, /[0-9.]+ ns/)) next
    key = $1 FS substr($2, 1, split_at - 1)
    figure = substr($2, RSTART, RLENGTH - 3) + 0
    rest = substr($2, RSTART + RLENGTH)
    sub(/^[^,;]*[,;] */, "", rest)
    if (rest !~ /percent|first round|ratio/) rest = ""
    if (match(rest, /^[0-9]+ percent/) && rest + 0 >= 1000) rest = sprintf("%.0f times", rest / 100) substr(rest, RLENGTH + 1)
    if (!(key in least)) { order[++keys] = key; least[key] = most[key] = figure; compared[key] = rest }
    if (figure < least[key]) { least[key] = figure; compared[key] = rest }
    if (figure > most[key]) most[key] = figure
}
END {
    print "Nanoseconds of wall time over the calls of all threads; the least of the runs, what it is compared with in that run, and the range over the runs."
    print ""
    print "| Subject | Workload | Threads | ns | Compared | Range |"
    print "|---|---|---|---|---|---|"
    for (i = 1; i <= keys; i++) {
        split(order[i], part, FS)
        what = part[2]
        sub(/^ +/, "", what)
        threads = 1
        if (match(what, /[0-9]+ threads /)) { threads = substr(what, RSTART) + 0; sub(/[0-9]+ threads /, "", what) }
        else if (match(what, /, threads [0-9]+/)) { threads = substr(what, RSTART + 10, RLENGTH - 10) + 0; sub(/, threads [0-9]+/, "", what) }
        else if (match(what, /^4 callers /)) threads = 4
        else if (match(what, /^callers [0-9]+ beside/)) threads = substr(what, 9) + 0
        key = order[i]
        range = least[key] == most[key] ? "" : least[key] " to " most[key]
        printf "| %s | %s | %s | %s | %s | %s |\n", part[1], what, threads, least[key], compared[key], range
    }
}
