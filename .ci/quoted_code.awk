# Reads the sources once for what stands in them, then the pages and the sources again for what they quote.
function bare(line) { gsub(/[ \t]+/, " ", line); sub(/^ /, "", line); sub(/ $/, "", line); return line }

# Whether all pieces of the block stand in that source, one behind the other.
function stands_in(text,    i, at, rest) {
    rest = text
    for (i = 1; i <= pieces; i++) {
        at = index(rest, "\n" piece[i])
        if (!at) return 0
        rest = substr(rest, at + length(piece[i]))
    }
    return 1
}

# Takes a line of the page: opens a block, ends it, or adds to its last piece.
function take(line,    name) {
    if (!inside && line ~ /^```(rust|rattle|c|cpp)$/) { inside = 1; pieces = 1; piece[1] = ""; from = FNR; return }
    if (!inside) return
    if (line == "..") { piece[++pieces] = ""; return }
    if (line != "```") { if (line != "" && line !~ /^\/\//) piece[pieces] = piece[pieces] line "\n"; return }
    inside = 0
    blocks++
    for (name in text) if (stands_in(text[name])) return
    print FILENAME ":" from ": FAILED, this block stands in no source"
    failed = 1
}

FNR == 1 { again = FILENAME in text || FILENAME !~ /\.(rt|rt\.txt|rs|c|h|cpp|hpp)$/; inside = 0 }
!again { line = bare($0); if (line != "" && line !~ /^\/\//) text[FILENAME] = text[FILENAME] (text[FILENAME] ? "" : "\n") line "\n"; next }
FILENAME ~ /\.rt$/ && bare($0) !~ /^\/\/[\/!]/ { next }
{ line = bare($0); if (FILENAME ~ /\.rt$/) { sub(/^\/\/[\/!] ?/, "", line) } take(line) }
END { print blocks " quoted blocks: " (failed ? "FAILED" : "as expected"); exit failed }
