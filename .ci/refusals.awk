# Gives the list tests/refused_at anew, of three files: what rt printed, the list as it stands, and the names of the
# edits. An edit that rt didn't name keeps its line, and so does one that was refused where the list says.

# The function at this line of a source, which of an export is that of its attribute. An edit changes lines, and moves
# none.
function function_at(source, last, line, name, at, before) {
    for (at = 1; (at <= last || before) && (getline line <source) > 0; at++) {
        if (line ~ /^ *(pub(\([a-z]*\))? )?(const )?(extern "C" )?fn [a-z_0-9]+/) {
            name = line
            sub(/^.*fn /, "", name)
            sub(/[^a-z_0-9].*/, "", name)
            before = 0
        }
        if (at == last) before = line ~ /^#\[unsafe\(no_mangle\)\]/
    }
    close(source)
    return name == "" ? "" : name " "
}

# Where an edit of a crate was refused, by what rt said of it behind its name. rt cuts each text off behind 160 bytes,
# and so perhaps the name of a goal: then `..` stands for the rest.
function place_of(crate, text, file, goal, line) {
    if (text == "refused, as it must be") return "! no reason is told"
    if (text ~ /^refused, as it must be \(only because a proof file/) return "! a proof names what it takes away"
    if (text ~ /^refused, as it must be \(only by a limit/) return "! only by a limit of the prover"
    if (text !~ /^refused, as it must be: /) {
        sub(/:.*/, "", text)
        return "! " text
    }
    sub(/^refused, as it must be: (note: )?(\.\/)?/, "", text)
    file = text
    sub(/:.*/, "", file)
    line = substr(text, length(file) + 2) + 0
    goal = text
    if (text ~ /: it is not proved that /) {
        if (sub(/.*\(`/, "", goal) == 0) goal = ""
        if (sub(/`.*/, "", goal) == 0) goal = goal ".."
        file = file " " function_at("crates/" crate "/" file, line) goal
        return text ~ /proved that (what |the `?invariant)/ ? file : "! beside clauses: " file
    }
    # The answer itself, or the first one on which others rest.
    if (sub(/^[^`]*: error: ([0-9]+ declarations that depend on )?`/, "", goal) == 0) return "! " file
    sub(/`.*/, "", goal)
    return "! an answer that no longer fits: " file " " goal
}

FILENAME == ARGV[1] && /^rt: must-fail [^ ]*\.edit: / {
    edit = $3
    sub(/\.edit:$/, "", edit)
    text = $0
    sub(/^rt: must-fail [^ ]* /, "", text)
    crate = edit
    sub(/\/.*/, "", crate)
    found[edit] = place_of(crate, text)
}

FILENAME == ARGV[2] {
    edit = $1
    sub(/:$/, "", edit)
    line[edit] = $0
    place[edit] = $0
    sub(/^[^ ]* /, "", place[edit])
    sub(/ because .*/, "", place[edit])
}

FILENAME == ARGV[3] {
    if (!($0 in found) || found[$0] == place[$0]) {
        if ($0 in line) print line[$0]
    } else {
        print $0 ": " found[$0]
    }
}
