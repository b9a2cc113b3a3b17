# Each allocation of `copy` is refused in turn: the copy is made, or nothing is left where it would stand, and the file stays as it is.
work=$(mktemp -d)
trap 'rm -rf "$work"' EXIT
program=$(readlink -f "$1")
cd "$work" || exit 1
mkdir memory whole
"$program" asm "$top/tests/cases/asm-file-block/kept.asm" kept.image
"$program" new file.vm --area 512
printf 'call put 1\nsave\ncall put 2\nupdate\n' | "$program" run kept.image file.vm -
cp file.vm before.vm
python3 -B "$top/tests/copied_file.py" file.vm 1024 >whole/new.vm
BEFORE='rm -rf made; mkdir made' AFTER='diff -r made $called && cmp file.vm before.vm' \
    sh "$top/tests/allocations.sh" "$program" copy file.vm made/new.vm --area 1024
