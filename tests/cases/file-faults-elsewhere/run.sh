# Calls of the system fail, or stop the program, while a file is made; they fail while one is printed, and while a routine brings a block
# of it into memory.
export LC_ALL=C
folder=$(mktemp -d)
trap 'rm -rf "$folder"' EXIT
cd "$folder" || exit 1
program=$1
. "$top/tests/on_files.sh"

# made HOW: each call of `new`, and what is there then; behind all of them there is no part of a file
made() {
    number=0
    while
        number=$((number + 1))
        rm -f new.vm calls
        failing any $number $number "$1" "$program" new new.vm --area 512 >output 2>&1
        status=$?
        call=$(tail -n 1 calls)
        [ $status -eq 0 ] && call="none"
        [ $status -eq 137 ] && echo >output
        echo "$call: status $status" $(cat output)
        if [ -e new.vm ]; then
            "$program" dump new.vm 2>&1
        fi
        [ $status -ne 0 ]
    do :; done
    ls -A | grep geos-part
}

echo "new, where a call fails:"
made fail
echo "new, behind half of what is written:"
made fail-half | grep '^write'
echo "new, where it is stopped:"
made stop
echo "new, stopped behind half of what is written:"
made stop-half | grep -A 1 '^write' | grep -v '^fdatasync: status 137$'

"$program" new file.vm --area 1024
printf 'call put 9\nsave\ncall put 8\nupdate\n' | "$program" run kept.image file.vm -

# Each read and sync of `dump` fails, once or with all later ones: nothing is printed then.
dumped() {
    for call in fdatasync read; do
        number=0
        while
            number=$((number + 1))
            failing $call $number $((number + $1)) fail "$program" dump --chunks file.vm >output 2>said
            status=$?
            [ $status -ne 0 ]
        do
            echo "$call: status $status $(cat output said)"
        done | uniq
        state "9 8" 9 | cmp - output
    done
}
echo "dump:"
dumped 0
echo "dump, and all later ones:"
dumped 1000

# A block of the file is fetched; the second time it is there.
"$program" asm "$(dirname "$0")/fetched.asm" fetched.image
printf 'call block\ncall block\ncall item\ncall item\n' >script
cat >make.script <<'END'
call make
update
END
"$program" new fetched.vm --area 1024
"$program" run fetched.image fetched.vm make.script

# fetched LATER: each read of the second run fails, and so many later ones
fetched() {
    number=0
    while
        number=$((number + 1))
        failing read $number $((number + $1)) fail "$program" run fetched.image fetched.vm script >output 2>&1
        echo $(cat output)
        [ $number -lt 100 ] && [ "$(echo $(cat output))" != "5 5 6 6" ]
    do :; done | uniq
}
echo "blocks that are fetched, of which reads fail:"
fetched 0
echo "and all later ones:"
fetched 1000
