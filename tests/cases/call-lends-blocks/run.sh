# A call on the command line lends the blocks of FILE whose handles stand behind its numbers, as a line of a script does;
# so does one that is traced.
export LC_ALL=C
folder=$(mktemp -d)
trap 'rm -rf "$folder"' EXIT
program=$(readlink -f "$1")
text=$top/tests/cases/script-lends-blocks/lend.asm
cd "$folder" || exit 1
"$program" new file.vm
printf 'call put 77\ncall put 8\nupdate\n' | "$program" call "$text" --file file.vm
# on_file WORD..: what a call with these words comes to on the file
on_file() {
    "$program" call "$text" --file file.vm "$@" 2>&1
    echo "status $?"
}
on_file peek @1
on_file peek @02 --hex
on_file peek 0 5 0 @1 --label
on_file two @1 @2
on_file two @1 @1 --label
on_file peek @3
on_file two @3 @1 --label
"$program" call "$text" peek @1 --strict 2>/dev/null
"$program" dump file.vm

echo "traced:"
"$program" trace "$text" peek @1 --file file.vm
"$program" trace "$text" peek @3 --file file.vm
echo "status $?"
"$program" trace "$text" peek @1 --file file.vm --steps 0

echo "faults:"
on_file peek
on_file peek 1 2
on_file peek @1 @2
on_file peek @1 5
on_file peek @
on_file peek @x
on_file peek @65536
on_file two @1
on_file put 5 @1
on_file peek x @1
on_file peek 1 2 3 4 5 6 7 8 9 @1
on_file none @1
on_file @1 peek
"$program" trace "$text" peek --file file.vm 2>&1
"$program" trace "$text" put @1 2>&1
echo "status $?"
