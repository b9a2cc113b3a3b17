# Calls of the system fail, or stop the program, while a file is copied: the file stays as it is, and the copy is complete or is not there.
export LC_ALL=C
folder=$(mktemp -d)
trap 'rm -rf "$folder"' EXIT
cd "$folder" || exit 1
program=$1
. "$top/tests/on_files.sh"
"$program" new file.vm --area 1024
printf 'call put 9\nsave\ncall put 8\nupdate\n' | "$program" run kept.image file.vm -
cp file.vm was.vm
python3 -B "$top/tests/copied_file.py" file.vm 2048 >whole.vm

# copied FIRST LAST HOW: a copy of which these calls fail so: the name of the first one that does, the status, what is said, and whether the
# copy is there. A part that is left is removed by the next command.
copied() {
    rm -f new.vm calls
    failing any "$1" "$2" "$3" "$program" copy file.vm new.vm --area 2048 >output 2>&1
    status=$?
    call=$(sed -n "$1p" calls | cut -d ' ' -f 1)
    [ $status -eq 137 ] && : >output
    found="nothing is there"
    [ -e new.vm ] && found="the copy is there"
    [ ! -e new.vm ] || cmp whole.vm new.vm
    cmp was.vm file.vm
    [ $status -eq 137 ] || ls -A | grep geos-part
    echo "${call:-none}: status $status$(sed 's/^/ /' output), $found"
}

# each HOW COUNT: each call, with so many later ones, until none does
each() {
    number=0
    while
        number=$((number + 1))
        copied $number $((number + $2)) "$1"
        [ $status -ne 0 ]
    do :; done | uniq
}

echo "where a call fails:"
each fail 0
echo "and all later ones:"
each fail 1000
echo "behind half of what is written:"
each fail-half 0 | grep '^write'
echo "behind all that is written:"
each fail-all 0 | grep '^write'
echo "where it is stopped:"
each stop 0
echo "stopped behind half of what is written:"
each stop-half 0 | grep '^write'
echo "each read and write does a part:"
copied 1 1000 part
echo "a read that is interrupted:"
failing read 1 1 again "$program" copy file.vm again.vm --area 2048 && cmp whole.vm again.vm
ls -A | grep geos-part
exit 0
