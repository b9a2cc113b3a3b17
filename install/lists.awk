# Reads lists in help texts: lines of an entry, two spaces, and what is said of it, or `1.` and what is said.

BEGIN { RS = "" }

# Where in a line that begins an entry stands what is said of it; 0 where nothing does.
function said_at(line) {
    return match(line, /^  [0-9]+[.] +/) || match(line, /[^ ]  +/) ? RSTART + RLENGTH : 0
}

# Reads the lines of a list into the entries and what is said of each, and answers how many there are.
function read_list(text, entry, said,   count, line, i, at, n) {
    count = split(text, line, "\n")
    for (i = 1; i <= count; i++) {
        sub(/^      -/, "  -", line[i])
        if (line[i] ~ /^  [^ ]/) {
            at = said_at(line[i])
            entry[++n] = substr(line[i], 3, at ? at - 3 : length(line[i]))
            said[n] = at ? substr(line[i], at) : ""
            sub(/ +$/, "", entry[n])
        } else {
            sub(/^ +/, "", line[i])
            said[n] = said[n] (said[n] == "" ? "" : " ") line[i]
        }
    }
    return n
}
