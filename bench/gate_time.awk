# Reads what `bench/figures sample` noted, and perhaps behind it what it noted beside the gate of another commit: lines
# `WORK<tab>CRATE<tab>TICKS`, and one `whole<tab>COMMIT<tab>SECONDS<tab>PROCESSORS<tab>SPEED<tab>NAME`. Writes the minutes
# of processor time by crate and work, beside all that the crate took at the other commit. A process whose words could not
# be read has no crate.
FNR == 1 { files++ }
$1 == "whole" { commit[files] = $2; next }
$2 ~ /[^a-z0-9_]/ { next }
{ sum[files, $1] += $3; by[files, $2, $1] += $3; if ($1 != "programs") sum[files, "all"] += $3 }
$2 != "" { by[files, $2, "all"] += $3; if (files == 1) all[$2] += $3; else was[$2] }
END {
    before = files == 2 ? " All at commit " commit[2] " |" : ""
    print "Minutes of processor time, sampled each second.\n"
    print "| Crate | Proofs | Tests | Edits | All |" before
    print "|---|---|---|---|---|" (before ? "---|" : "")
    while (1) {
        most = ""
        for (crate in all) if (most == "" || all[crate] > all[most]) most = crate
        if (most == "") break
        row(most)
        delete all[most]
        delete was[most]
    }
    for (crate in was) row(crate)
    printf "| all | %.0f | %.0f | %.0f | %.0f |%s\n", minutes(sum[1, "proofs"]), minutes(sum[1, "tests"]), minutes(sum[1, "edits"]),
        minutes(sum[1, "all"]), before ? sprintf(" %.0f |", minutes(sum[2, "all"])) : ""
    if ((1, "programs") in sum) printf "\nCompiling and linking programs, by other tools of the kit: %.0f.\n", minutes(sum[1, "programs"])
}
function row(crate) {
    print "| `" crate "` |" cell(1, crate, "proofs") cell(1, crate, "tests") cell(1, crate, "edits") cell(1, crate, "all") \
        (before ? cell(2, crate, "all") : "")
}
function minutes(ticks) { return ticks / hertz / 60 }
function cell(file, crate, work) {
    return ((file, crate, work) in by ? sprintf(" %.1f", minutes(by[file, crate, work])) : "") " |"
}
