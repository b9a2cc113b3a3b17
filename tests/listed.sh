# Assembles each text NAME.asm of a folder, and prints its fault, or the length and the listing of its image. Words: the program, the
# folder.
export LC_ALL=C
program=$1
folder=$2
image=$(mktemp)
trap 'rm -f "$image"' EXIT
for text in "$folder"/*.asm; do
    printf '%s: ' "$(basename "$text" .asm)"
    "$program" asm "$text" "$image" 2>&1 || continue
    echo "$(($(wc -c <"$image"))) bytes"
    "$program" list "$image" 2>&1
done
exit 0
