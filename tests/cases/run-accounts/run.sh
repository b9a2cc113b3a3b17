# Payments on a file last without an update by the script: the routines save, and what is refused leaves nothing behind.
folder=$(mktemp -d)
trap 'rm -rf "$folder"' EXIT
cd "$folder" || exit
"$1" asm "$top/examples/accounts.asm" accounts.image && "$1" new file.vm && "$1" dump file.vm || exit
for turn in 1 2; do
    "$1" run accounts.image file.vm "$top/examples/accounts.script" && "$1" dump file.vm || exit
done
