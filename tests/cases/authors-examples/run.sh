# Each text of docs/AUTHORS.md that begins with a routine: whether it may run, and what the call in the same line of `calls` puts out.
export LC_ALL=C
folder=$(mktemp -d)
trap 'rm -rf "$folder"' EXIT
awk -v folder="$folder" '
    /^```/ { inside = 0 }
    /^```asm / { begins = 1; next }
    begins && /^routine / { inside = 1; number++; file = sprintf("%s/%02d", folder, number) }
    { begins = 0 }
    inside { print >file }' "$top/docs/AUTHORS.md"
number=0
for text in "$folder"/*; do
    number=$((number + 1))
    sed -n 1p "$text"
    "$1" asm "$text" - >"$folder/.image" && "$1" check "$folder/.image"
    { xxd -p "$folder/.image"; echo end; sed -n "${number}p" "$(dirname "$0")/calls"; } | "$1"
done
