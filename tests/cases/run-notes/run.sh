# A note book on a file: what is saved stays beside what is current, and the next run finds both.
folder=$(mktemp -d)
trap 'rm -rf "$folder"' EXIT
cd "$folder" || exit
"$1" asm "$top/examples/notes.asm" notes.image && "$1" new file.vm && "$1" dump file.vm || exit
for turn in 1 2; do
    "$1" run notes.image file.vm "$top/examples/notes.script" && "$1" dump file.vm || exit
done
