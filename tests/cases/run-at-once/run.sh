# Ten that run on one file at once wait for each other: each block that is put is kept.
export LC_ALL=C
folder=$(mktemp -d)
trap 'rm -rf "$folder"' EXIT
cd "$folder" || exit 1
"$1" asm "$top/tests/cases/asm-file-block/kept.asm" kept.image
"$1" new kept.vm
printf 'call put 1\nupdate\n' >script
for number in 1 2 3 4 5 6 7 8 9 10; do
    "$1" run kept.image kept.vm script &
done
wait
"$1" dump kept.vm | head -n 1
