# Each allocation of `dump` with all bytes is refused in turn, and none changes the file.
work=$(mktemp -d)
trap 'rm -rf "$work"' EXIT
program=$(readlink -f "$1")
cd "$work" || exit 1
"$program" asm "$top/tests/cases/asm-file-block/kept.asm" kept.image
"$program" new file.vm --area 1024
printf 'call put 1\nsave\ncall put 2\nupdate\n' | "$program" run kept.image file.vm -
cp file.vm before.vm
sh "$top/tests/allocations.sh" "$program" dump --chunks file.vm
cmp file.vm before.vm
