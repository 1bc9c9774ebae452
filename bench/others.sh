# How much processor time others than the calling script and its ended programs took, in hundredths of that of all
# processors: `mark` begins, `others` prints it. To be sourced. What the host takes from this machine (steal) is others'.
processors=$(nproc)
ticks=$(getconf CLK_TCK)

# What all have spent, and what this script has with its ended programs, in ticks; and the time in microseconds.
spent() {
    local user nice system irq soft steal own
    read -r _ user nice system _ _ irq soft steal _ </proc/stat
    read -r -a own <"/proc/$$/stat"
    spent_all=$((user + nice + system + irq + soft + steal))
    spent_own=$((own[13] + own[14] + own[15] + own[16]))
    spent_at=${EPOCHREALTIME/[.,]/}
}

mark() {
    spent
    marked_all=$spent_all marked_own=$spent_own marked_at=$spent_at
}

others() {
    spent
    local all=$(((spent_at - marked_at) * ticks * processors / 1000000))
    local theirs=$((spent_all - marked_all - spent_own + marked_own))
    taken_by_others=$((all > 0 && theirs > 0 ? 100 * theirs / all : 0))
}

# Whether nothing else works here: two seconds in which nothing of this script runs.
is_quiet() {
    mark
    sleep 2
    others
    [ "$taken_by_others" -le "${OTHERS:-3}" ]
}
