# A text whose routine borrows a block, the listing of its image, and that assembled: the image again. Then the bytes of the image, and the
# slots at the entry and at the exit.
folder=$(mktemp -d)
trap 'rm -rf "$folder"' EXIT
"$1" asm "$(dirname "$0")/poke.asm" "$folder/first"
"$1" list "$folder/first" >"$folder/text"
"$1" asm "$folder/text" "$folder/second"
cmp "$folder/first" "$folder/second" && cat "$folder/text"
echo $(wc -c <"$folder/first")
echo $(od -An -tx1 -j48 -N4 "$folder/first")
echo $(od -An -tx1 -j86 -N4 "$folder/first")
"$1" check "$folder/first"
