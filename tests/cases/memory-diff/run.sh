# Each allocation of `diff` is refused in turn, and none changes a file.
work=$(mktemp -d)
trap 'rm -rf "$work"' EXIT
program=$(readlink -f "$1")
cd "$work" || exit 1
"$program" asm "$top/tests/cases/asm-file-block/kept.asm" kept.image
"$program" new one.vm --area 1024
printf 'call put 1\nsave\n' | "$program" run kept.image one.vm -
cp one.vm before.vm
"$program" copy one.vm other.vm
printf 'call put 2\nupdate\n' | "$program" run kept.image other.vm -
sh "$top/tests/allocations.sh" "$program" diff one.vm other.vm
cmp one.vm before.vm
