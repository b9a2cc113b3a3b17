# Calls of the system on a file fail, each once and each with all later ones: what a run prints, its status where it is not 0, and which
# state `dump` finds behind it. The last line of each table is that of a call which nobody asks for.
export LC_ALL=C
folder=$(mktemp -d)
trap 'rm -rf "$folder"' EXIT
cd "$folder" || exit 1
program=$1
. "$top/tests/on_files.sh"

# fails CALL FIRST LAST HOW: a run of `script` on a copy of start.vm
fails() {
    cp start.vm file.vm
    failing "$@" "$program" run kept.image file.vm script >output 2>&1 || echo "status $?" >>output
    echo "$(tr '\n' ' ' <output)- $(which_state file.vm states)"
}

# each CALL COUNT HOW..: the first calls of that name, so many
each() {
    call=$1
    count=$2
    shift 2
    for how; do
        for number in $(seq "$count"); do
            echo "$call $number $how: $(fails "$call" "$number" "$number" "$how")"
            echo "$call $number.. $how: $(fails "$call" "$number" 1000 "$how")"
        done
    done
}

# until_done CALL LAST HOW: each call of that name, or that one and so many later ones, until the run is as if none failed; lines that
# are alike are printed once
until_done() {
    number=0
    while
        number=$((number + 1))
        line=$(fails "$1" $number $((number + $2)) "$3")
        echo "$line"
        [ $number -lt 100 ] && [ "$line" != "$whole" ]
    do :; done | uniq
}

"$program" new saved.vm --area 1024
printf 'call put 9\nsave\n' | "$program" run kept.image saved.vm -
cp saved.vm updated.vm
printf 'call put 8\nupdate\n' | "$program" run kept.image updated.vm -

echo "save:"
cp saved.vm start.vm
printf 'call put 1\nsave\nsave\ncall get\n' >script
printf '9/9\n9 1/9 1\n' >states
each write 5 fail fail-half fail-all
each fdatasync 6 fail
whole="1 - 2"
echo "a read:"
until_done read 0 fail
echo "a read and later ones:"
until_done read 1000 fail
echo "each read and write does a part:"
fails any 1 1000 part
echo "a call is interrupted:"
until_done any 0 again

echo "update:"
printf 'call put 1\nupdate\nupdate\ncall get\n' >script
printf '9/9\n9 1/9\n' >states
each write 5 fail
each fdatasync 6 fail

echo "revert:"
cp updated.vm start.vm
printf 'call put 1\nrevert\nrevert\ncall get\n' >script
printf '9 8/9\n9/9\n' >states
each write 5 fail
each fdatasync 6 fail
