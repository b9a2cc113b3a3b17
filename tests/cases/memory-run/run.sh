# Each allocation of two scripts on one file is refused in turn: put, save, get, put, update and get; and get, revert and get. What is refused
# before the first command leaves the file as it was; a commit that is refused changes nothing, and the script goes on.
export LC_ALL=C
work=$(mktemp -d)
trap 'rm -rf "$work"' EXIT
program=$(readlink -f "$1")
cd "$work" || exit 1
. "$top/tests/on_files.sh"

# each: each allocation of a run of `script` on a copy of start.vm
each() {
    "$program" run kept.image file.vm script
    BEFORE='cp start.vm file.vm' AFTER="$after" ANSWERS=answers sh "$top/tests/allocations.sh" "$program" run kept.image file.vm script
}

export program
after='if [ $called = memory ]; then cmp start.vm file.vm; else "$program" dump --chunks file.vm | cmp - $called; fi'
"$program" new start.vm --area 1024
cp start.vm file.vm
printf 'call put 1\nsave\ncall get\ncall put 2\nupdate\ncall get\n' >script
printf 'refused 13 1 2\n1 refused 13 2\n' >answers
state "1 2" 1 >whole
state "1 2" "" >1
state 1 1 >2
each

printf 'call put 1\nsave\ncall put 2\nupdate\n' | "$program" run kept.image start.vm -
cp start.vm file.vm
printf 'call get\nrevert\ncall get\n' >script
printf '2 refused 13 2\n' >answers
state 1 1 >whole
state "1 2" 1 >1
each
