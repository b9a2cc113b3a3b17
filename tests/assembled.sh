# Assembles each text NAME.asm of a folder, and runs its file `script` on each image. Words: the program, the folder.
export LC_ALL=C
program=$1
folder=$2
image=$(mktemp)
trap 'rm -f "$image"' EXIT
for text in "$folder"/*.asm; do
    echo "$(basename "$text" .asm):"
    "$program" asm "$text" "$image" 2>&1 || continue
    { xxd -p "$image"; echo end; cat "$folder/script"; } | "$program" 2>&1
done
exit 0
