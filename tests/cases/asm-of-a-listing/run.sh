# The listing of an image, assembled, is the image again.
folder=$(mktemp -d)
trap 'rm -rf "$folder"' EXIT
for name in add loop call heap records; do
    "$1" asm "$(dirname "$0")/../../../examples/$name.asm" "$folder/first"
    "$1" list "$folder/first" >"$folder/text"
    "$1" asm "$folder/text" "$folder/second"
    cmp "$folder/first" "$folder/second" && echo "$name"
done
