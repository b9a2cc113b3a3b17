# The image stands where a file was before, and nothing is left beside it.
folder=$(mktemp -d)
trap 'rm -rf "$folder"' EXIT
echo before >"$folder/image"
"$1" asm "$(dirname "$0")/../../../examples/add.asm" "$folder/image"
"$1" check "$folder/image"
ls "$folder"
