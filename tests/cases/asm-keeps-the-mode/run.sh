# A file that is replaced keeps its mode; a new one has that of any new file.
folder=$(mktemp -d)
trap 'rm -rf "$folder"' EXIT
umask 022
for mode in 600 640 755 444; do
    echo before >"$folder/image"
    chmod "$mode" "$folder/image"
    "$1" asm "$top/examples/add.asm" "$folder/image"
    stat -c %a "$folder/image"
    "$1" check "$folder/image"
    rm -f "$folder/image"
done
"$1" asm "$top/examples/add.asm" "$folder/image"
stat -c %a "$folder/image"
