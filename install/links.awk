# Prints a Markdown page of which each link to a file that is not there is plain text. `folder` is the page's folder. A link stays on one line,
# or its text goes on from the line before, and then the link stays as it is.

function is_there(target) {
    sub(/#.*/, "", target)
    return target == "" || target ~ /^[a-z]+:/ || system("test -e '" folder "/" target "'") == 0
}

{
    line = $0
    out = ""
    while (match(line, /\[[^][]*\]\([^()]*\)/)) {
        link = substr(line, RSTART, RLENGTH)
        split(substr(link, 2, length(link) - 2), part, /\]\(/)
        out = out substr(line, 1, RSTART - 1) (is_there(part[2]) ? link : part[1])
        line = substr(line, RSTART + RLENGTH)
    }
    print out line
}
