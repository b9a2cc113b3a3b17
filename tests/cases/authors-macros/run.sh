# The text of docs/AUTHORS.md that `cpp` makes, and what a call of it puts out.
export LC_ALL=C
folder=$(mktemp -d)
trap 'rm -rf "$folder"' EXIT
cd "$folder" || exit
awk '
    /^```/ { file = /^```[a-z0-9]* (pair.h|right.asm)$/ ? $2 : ""; next }
    file { print >file }' "$top/docs/AUTHORS.md"

cpp -P right.asm | "$1" call - right 3 4
