# Makes Markdown of what arrbench or when_it_pays wrote, whose lines are separated by tabs.
#
#     awk -F '\t' -v of=arrbench -f tables.awk FILE        a table for each kind of range, and one of shares and waits
#     awk -F '\t' -v of=waits -f tables.awk FILE           the mean and the longest wait of long rounds
#     awk -F '\t' -v of=wide -f tables.awk FILE            turns of all and of the wide caller, and its waits
#     awk -F '\t' -v of=crowd -f tables.awk FILE           turns and waits where threads are more than processors
#     awk -F '\t' -v of=when_it_pays -f tables.awk FILE    from which work on the range lock is ahead of whom
#     awk -F '\t' -v of=ratios -f tables.awk FILE          of the same lines: the range lock beside the best other lock

function seen(list, name,    i) {
    for (i = 1; i <= count[list]; i++) if (item[list, i] == name) return
    item[list, ++count[list]] = name
}

# A row of a table: its first cell, with the others behind it.
function row(first, others) { print "| " first " |" others }

function number(x) { return x < 10 ? sprintf("%.2f", x) : sprintf("%.1f", x) }

function time_of(ns) { return ns < 1000 ? ns " ns" : ns / 1000 " µs" }

function wait_of(us) { return us < 1000 ? sprintf("%.2f", us / 1000) : us < 10000 ? sprintf("%.1f", us / 1000) : sprintf("%.0f", us / 1000) }

of == "arrbench" || of == "waits" || of == "wide" || of == "crowd" {
    seen("kinds", $1); seen("readers", $2); seen("threads", $3); seen("peers", $4)
    rate[$1, $2, $3, $4] = $5; share[$1, $2, $3, $4] = $6; wait[$1, $2, $3, $4] = $7; mean[$1, $2, $3, $4] = $8
}

of == "when_it_pays" || of == "ratios" {
    seen("modes", $1); seen("threads", $2); seen("works", $3); seen("peers", $4)
    rate[$1, $2, $3, $4] = $5
}

# The rates of a load with each share of readers.
function rates(kind, threads, peer,    r, cell) {
    for (r = 1; r <= count["readers"]; r++) cell = cell (r > 1 ? " / " : " ") number(rate[kind, item["readers", r], threads, peer])
    return cell " |"
}

# The least share and the longest wait of a load with writers.
function shares(kind, threads, peer,    r, cell, waits) {
    for (r = 2; r <= count["readers"]; r++) {
        cell = cell (r > 2 ? " / " : " ") share[kind, item["readers", r], threads, peer]
        waits = waits (r > 2 ? " / " : "") wait_of(wait[kind, item["readers", r], threads, peer])
    }
    return cell " | " waits " |"
}

function print_arrbench(    k, t, p, head, line, cells) {
    for (k = 1; k <= count["kinds"]; k++) {
        head = line = ""
        for (t = 1; t <= count["threads"]; t++) {
            head = head " " item["threads", t] (item["threads", t] == 1 ? " thread |" : " threads |")
            line = line "---|"
        }
        print "Million turns a second, " item["kinds", k] " ranges; 100 / 60 / 0 readers in 100:\n"
        row("", head)
        print "|---|" line
        for (p = 1; p <= count["peers"]; p++) {
            cells = ""
            for (t = 1; t <= count["threads"]; t++) cells = cells rates(item["kinds", k], item["threads", t], item["peers", p])
            row(item["peers", p], cells)
        }
        print ""
    }
    print "The turns of the thread that made fewest, in hundredths of an even share, and the longest single wait in"
    print "milliseconds, each the worst of three rounds; 60 / 0 readers in 100:\n"
    print "| | 4 threads, full: share | wait | random: share | wait | 16 threads, full: share | wait | random: share | wait |"
    print "|---|---|---|---|---|---|---|---|---|"
    for (p = 1; p <= count["peers"]; p++)
        row(item["peers", p], shares("full", 4, item["peers", p]) shares("random", 4, item["peers", p]) \
            shares("full", 16, item["peers", p]) shares("random", 16, item["peers", p]))
}

# The rate and the waits of a load in long rounds.
function waited(kind, peer) {
    return " " number(rate[kind, 60, 4, peer]) " | " sprintf("%.1f", mean[kind, 60, 4, peer]) " | " wait_of(wait[kind, 60, 4, peer]) " |"
}

function print_waits(    p) {
    print "Three long rounds on 4 threads, 60 readers in 100: million turns a second, the mean wait in microseconds with the"
    print "call itself, and the longest in milliseconds:\n"
    print "| | full: turns | mean wait | longest | random: turns | mean wait | longest |"
    print "|---|---|---|---|---|---|---|"
    for (p = 1; p <= count["peers"]; p++) row(item["peers", p], waited("full", item["peers", p]) waited("random", item["peers", p]))
}

# The least work from which on one peer is ahead of another by 2 in 100 or more, at that and each longer work.
function ahead(mode, threads, mine, other,    w) {
    w = count["works"]
    while (w > 0 && rate[mode, threads, item["works", w], mine] > 1.02 * rate[mode, threads, item["works", w], other]) w--
    return w == count["works"] ? "-" : time_of(item["works", w + 1])
}

function print_when_it_pays(    m, t, p, line) {
    print "| threads | who | ahead of the mutex from | of the rwlock from | of 64 mutexes from | of the interval tree from | of the FIFO lock from |"
    print "|---|---|---|---|---|---|---|"
    for (t = 1; t <= count["threads"]; t++)
        for (m = 1; m <= count["modes"]; m++) {
            line = " " item["modes", m] " |"
            for (p = 3; p <= count["peers"]; p++)
                line = line " " ahead(item["modes", m], item["threads", t], item["peers", 1], item["peers", p]) " / " \
                    ahead(item["modes", m], item["threads", t], item["peers", 2], item["peers", p]) " |"
            row(item["threads", t], line)
        }
}

function print_wide(    p, name) {
    print "One caller of 4096 slots beside seven writers of one slot, each for 1 µs: million turns a second of all, thousand of"
    print "the wide caller, its mean wait in microseconds and its longest in milliseconds:\n"
    print "| | turns | the wide caller's | its mean wait | longest |"
    print "|---|---|---|---|---|"
    for (p = 1; p <= count["peers"]; p++) {
        name = item["peers", p]
        row(name, " " number(rate["wide", 0, 8, name]) " | " number(share["wide", 0, 8, name]) " | " sprintf("%.1f", mean["wide", 0, 8, name]) " | " \
            wait_of(wait["wide", 0, 8, name]) " |")
    }
}

function print_crowd(    p, t, name, head, line, cells) {
    for (t = 1; t <= count["threads"]; t++) {
        head = head " " item["threads", t] " threads: turns | least share | longest wait |"
        line = line "---|---|---|"
    }
    print "Threads more than processors at random ranges of 256 slots, each for 1 µs, 60 / 0 readers in 100: million turns a"
    print "second, the least share in hundredths of an even one, the longest wait in milliseconds:\n"
    row("", head)
    print "|---|" line
    for (p = 1; p <= count["peers"]; p++) {
        name = item["peers", p]
        cells = ""
        for (t = 1; t <= count["threads"]; t++)
            cells = cells " " number(rate["crowd", 60, item["threads", t], name]) " / " number(rate["crowd", 0, item["threads", t], name]) " | " \
                share["crowd", 60, item["threads", t], name] " / " share["crowd", 0, item["threads", t], name] " | " \
                wait_of(wait["crowd", 60, item["threads", t], name]) " / " wait_of(wait["crowd", 0, item["threads", t], name]) " |"
        row(name, cells)
    }
}

# The rates of the range lock with one list and with regions, over the best rate of the other peers, with that one's name.
function ratio(mode, threads, work,    p, best, name) {
    for (p = 3; p <= count["peers"]; p++)
        if (rate[mode, threads, work, item["peers", p]] > best) {
            name = item["peers", p]
            best = rate[mode, threads, work, name]
        }
    if (best == 0) return " - |"
    return sprintf(" %.2f / %.2f (%s) |", rate[mode, threads, work, item["peers", 1]] / best, rate[mode, threads, work, item["peers", 2]] / best, name)
}

function print_ratios(    m, t, w, head, line, cells) {
    for (w = 2; w <= count["works"]; w++) {
        head = head " W of " time_of(item["works", w]) " |"
        line = line "---|"
    }
    print "Holds a second of the range lock, with one list / with regions, over those of the best other lock, which is named:\n"
    print "| threads | who |" head
    print "|---|---|" line
    for (t = 2; t <= count["threads"]; t++)
        for (m = 1; m <= count["modes"]; m++) {
            cells = " " item["modes", m] " |"
            for (w = 2; w <= count["works"]; w++) cells = cells ratio(item["modes", m], item["threads", t], item["works", w])
            row(item["threads", t], cells)
        }
}

END {
    if (of == "arrbench") print_arrbench()
    else if (of == "waits") print_waits()
    else if (of == "wide") print_wide()
    else if (of == "crowd") print_crowd()
    else if (of == "ratios") print_ratios()
    else print_when_it_pays()
}
