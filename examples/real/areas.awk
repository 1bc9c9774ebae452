# From the maps of a process, at its beginning and at its end, to the areas that a run on its trace has to print: pages
# that touch and have the same four characters are one area. The stack is the one of the beginning, and what lies past
# the user addresses, the vsyscall page, is left out.
/\[stack\]/ {
    if (NR == FNR) {
        stack = $1
    }
    $1 = stack
}

NR == FNR || /\[vsyscall\]/ {
    next
}

{
    split($1, ends, "-")
    if (ends[1] == stop && $2 == kind) {
        stop = ends[2]
        next
    }
    put()
    start = ends[1]
    stop = ends[2]
    kind = $2
}

END {
    put()
}

function put() {
    if (start != "") {
        print start "-" stop " " kind " 00000000 00:00 0"
    }
}
