#!/bin/sh
# Refuses one allocation after the other of a command, until one would be refused that it does not ask for: `allocations.sh COMMAND
# WORD..`, with its standard input in a file that INPUT names. Each time the command must answer all that it answers with ample memory,
# or what it answers where a commit wanted memory, or end with status 1, the one line `memory` on standard error, and a beginning of the
# whole answer; and it must give back what it took. What a refused commit gives is the whole answer with one line `refused 13` more, or
# what a line of the file that ANSWERS names has, with a space for each end of a line; each of these lines must come.
# The command in BEFORE is run before each try. The one in AFTER must hold behind each, where $called is `whole`, `memory`, `refused`, or
# the number of the line of ANSWERS.
# Prints a line, and one more where commits were refused, and ends with status 1 where that does not hold.
here=$(dirname "$(readlink -f "$0")")
work=$(mktemp -d)
trap 'rm -rf "$work"' EXIT
cc -O -shared -fPIC -o "$work/refusing.so" "$here/refusing.c" -ldl || exit 1

# refusing N COMMAND..: runs the command, which is refused allocation N
refusing() {
    number=$1
    shift
    eval "${BEFORE:-:}"
    REFUSED=$number COUNTS=$work/counts LD_PRELOAD=$work/refusing.so "$@" <"${INPUT:-/dev/null}" >"$work/stdout" 2>"$work/stderr"
    status=$?
    read -r asked held <"$work/counts"
}

# refused_commit: what the answer is called where a commit was refused, or nothing
refused_commit() {
    if [ -n "$ANSWERS" ]; then
        grep -nxFe "$(paste -sd ' ' "$work/stdout")" "$ANSWERS" | cut -d : -f 1
    elif [ "$(grep -cx 'refused 13' "$work/stdout")" -eq 1 ] && grep -vx 'refused 13' "$work/stdout" | cmp -s - "$work/whole"; then
        echo refused
    fi
}

# fault WHAT: says what does not hold, and ends
fault() {
    echo "allocation $number: $1"
    exit 1
}

# look: what the answer is called, once it may be what it is
look() {
    [ "$held" -le "$ample" ] || fault "$held were not given back"
    called=
    if [ "$status" -eq "$whole" ]; then
        cmp -s "$work/stdout" "$work/whole" && called=whole || called=$(refused_commit)
    fi
    if [ -z "$called" ]; then
        [ "$status" -eq 1 ] && cmp -s "$work/stderr" "$work/memory" || fault "status $status, $(head -n 1 "$work/stderr")"
        [ ! -s "$work/stdout" ] || head -c "$(wc -c <"$work/stdout")" "$work/whole" | cmp -s - "$work/stdout" || fault "it printed something else"
        called=memory
    fi
    eval "${AFTER:-:}" || fault "what it leaves is wrong for $called"
}

refusing 0 "$@"
cp "$work/stdout" "$work/whole"
whole=$status
ample=$held
echo memory >"$work/memory"
look
: >"$work/commits"
while [ "$asked" -ge "$number" ]; do
    refusing $((number + 1)) "$@"
    look
    [ "$called" = whole ] || [ "$called" = memory ] || echo "$called" >>"$work/commits"
done
[ "$number" -gt 1 ] || exit 1
echo "each is answered, or is memory"
commits=$(wc -l <"$work/commits")
[ "$commits" -eq 0 ] || echo "commits refused: $commits"
[ -z "$ANSWERS" ] || [ "$(sort -u "$work/commits" | wc -l)" -eq "$(wc -l <"$ANSWERS")" ] || echo "not all of $ANSWERS came"
