# The first bytes of an image, and a file of none, which is read as a text.
folder=$(mktemp -d)
trap 'rm -rf "$folder"' EXIT
"$1" asm "$(dirname "$0")/../../../examples/add.asm" "$folder/image"
head -c 333 "$folder/image" >"$folder/cut"
: >"$folder/empty"
"$1" check "$folder/empty" 2>&1
"$1" check "$folder/cut"
