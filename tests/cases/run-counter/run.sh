# A counter on a file goes on from run to run; what the file keeps as current changes, and nothing is saved.
folder=$(mktemp -d)
trap 'rm -rf "$folder"' EXIT
cd "$folder" || exit
"$1" asm "$top/examples/counter.asm" counter.image && "$1" new file.vm && "$1" dump file.vm || exit
for turn in 1 2; do
    "$1" run counter.image file.vm "$top/examples/counter.script" && "$1" dump file.vm || exit
done
