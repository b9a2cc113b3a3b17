# A program that is killed before a call of the system on its file, or behind half of the bytes of a write, leaves the file as it was before
# the commit or as the commit makes it, and the next run goes on. Each line: the call, and the number of the state that is found.
export LC_ALL=C
folder=$(mktemp -d)
trap 'rm -rf "$folder"' EXIT
cd "$folder" || exit 1
program=$1
. "$top/tests/on_files.sh"

# goes_on FILE STATE: another run finds what the state has as current, and puts a block to it
goes_on() {
    IFS=/ read -r current saved <<END
$2
END
    { echo "${current##* }"; echo 3; } >wanted
    printf 'call get\ncall put 3\nupdate\ncall get\n' | "$program" run kept.image "$1" - 2>&1 | cmp -s - wanted || echo "the next run printed something else"
    echo "$current 3/$saved" >wanted
    [ "$(which_state "$1" wanted)" = 1 ] || echo "the next run left something else"
}

# stop HOW NUMBER FILE: a run of `script` on the file that is stopped so at this call; prints what is found, behind the words in $call
stop() {
    cp "$3" file.vm
    rm -f calls
    failing any "$2" "$2" "$1" "$program" run kept.image file.vm script
    status=$?
    case $status in
        0) call="not stopped" ;;
        137) [ "$1" = stop ] && call=$(tail -n 1 calls) ;;
        *) echo "status $status" ;;
    esac
    found=$(which_state file.vm states)
    case $call in
        read*) echo "read: $found" ;;
        *) echo "$call: $found" ;;
    esac
    goes_on file.vm "$(sed -n "${found}p" states)"
}

# stops FILE: stops the run of `script` on the file at each call; its states are the lines of `states`
stops() {
    number=0
    status=137
    while [ $status -eq 137 ]; do
        number=$((number + 1))
        stop stop $number "$1"
        case $call in
            write*\ 1) ;;
            write*)
                call="half of it"
                stop stop-half $number "$1"
                ;;
        esac
    done | uniq
}

echo "put, save, put, update:"
"$program" new saved.vm --area 1024
printf 'call put 9\nsave\n' | "$program" run kept.image saved.vm -
printf 'call put 1\nsave\ncall put 2\nupdate\n' >script
cat >states <<'END'
9/9
9 1/9 1
9 1 2/9 1
END
stops saved.vm

echo "put, revert, put, update:"
cp saved.vm updated.vm
printf 'call put 8\nupdate\n' | "$program" run kept.image updated.vm -
printf 'call put 1\nrevert\ncall put 2\nupdate\n' >script
cat >states <<'END'
9 8/9
9/9
9 2/9
END
stops updated.vm
