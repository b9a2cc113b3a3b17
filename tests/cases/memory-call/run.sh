# Each allocation of a call, and of a script, of a text is refused in turn: in memory, and on a file, which stays as it was then.
export LC_ALL=C
work=$(mktemp -d)
trap 'rm -rf "$work"' EXIT
program=$(readlink -f "$1")
cd "$work" || exit 1
"$program" call "$top/examples/add.asm" add 1 2
sh "$top/tests/allocations.sh" "$program" call "$top/examples/add.asm" add 1 2
INPUT=$top/examples/line.script sh "$top/tests/allocations.sh" "$program" call "$top/examples/line.asm"
"$program" new start.vm --area 1024
cp start.vm file.vm
BEFORE='cp start.vm file.vm' AFTER='[ $called = whole ] || cmp start.vm file.vm' sh "$top/tests/allocations.sh" "$program" call "$top/examples/accounts.asm" --file file.vm list
