# Reads a maps file, an empty line, and one munmap of a whole area, and writes what the program prints of them: the other
# areas, of which those that touch with equal kind are one, and the summary.
function is_past(end) { return length(end) > 14 || length(end) == 14 && end > "fffffffffff000" }
function flush() { if (start != "") print start "-" stop " " kind " 00000000 00:00 0" }
/^munmap/ { sub(/.*0x/, ""); sub(/,.*/, ""); gone = $0; next }
NF {
    split($1, ends, "-")
    if (is_past(ends[2])) { skipped++; next }
    starts[++areas] = ends[1]; stops[areas] = ends[2]; kinds[areas] = $2
}
END {
    for (i = 1; i <= areas; i++) {
        if (starts[i] == gone) continue
        if (starts[i] == stop && kinds[i] == kind) { stop = stops[i]; continue }
        flush()
        start = starts[i]; stop = stops[i]; kind = kinds[i]
    }
    flush()
    printf "played 1 skipped %d refused 0 differ 0\n", skipped
}
