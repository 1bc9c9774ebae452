# Reads what objdump prints of the program of crates/bench_fault_steps, and behind it valgrind's trace: the instructions that
# ran (I), and what each loaded (L), stored (S) or changed (M). An instruction that touches a word of the space's table is
# a step. Counted are those that only load, those that objdump calls locked, and others, which there should be none of. A
# program is loaded at the beginning of a page, so the last three digits of an instruction's address are the same in
# both.
#
# Where the table is, the opening shows: it copies the first values of all words there, the client words last. These are
# more than 19 and as many as there are rows (`-v rows=`). No other row of stores, each beginning
# where the one before ended, is as long and comes as late. Most lines are those of the opening, some twenty million, so
# as little as can be is done for each.
BEGIN {
    client_bytes = 8 * (19 + rows)
    for (i = 0; i < 4096; i++) in_page[sprintf("%03x", i)] = i
}

function number(digits, sum, i) {
    for (i = 1; i <= length(digits); i++) sum = 16 * sum + index("123456789abcdef", substr(digits, i, 1))
    return sum
}

function offset_in_page(address) { return substr(address, length(address) - 2) }

# The instruction before is over: what it did with the table.
function count_step() {
    sub(/,.*/, "", instruction)
    if (touched == "L") loads++
    else if (offset_in_page(instruction) in locked) steps++
    else others++
    touched = ""
}

/^I/ { if (touched != "") count_step(); instruction = $2; next }

/^ L/ && !table { next }

/^ [LSM]/ {
    split($2, access, ",")
    digits = length(access[1]) - 3
    page = substr(access[1], 1, digits)
    if (!(page in first)) first[page] = 4096 * number(page)
    at = first[page] + in_page[substr(access[1], digits + 1)]
    if ($1 != "L") {
        if (at != row_end) row = at
        row_end = at + access[2]
        if (row_end - row >= client_bytes) { table = row; table_end = row_end; steps = loads = others = 0; next }
    }
    if (table <= at && at < table_end && touched != "M") touched = $1 == "L" ? "L" : "M"
    next
}

/^ *[0-9a-f]+:\t(lock |xchg .*\()/ { sub(/:/, "", $1); locked[offset_in_page($1)] }

END { if (touched != "") count_step(); print steps + 0, loads + 0, others + 0 }
