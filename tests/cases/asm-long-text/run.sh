# One byte more than a text may have, comments alone but for its first lines.
folder=$(mktemp -d)
trap 'rm -rf "$folder"' EXIT
{
    printf 'routine one public budget 1\nRET\n;'
    head -c 1048544 /dev/zero | tr '\0' '-'
} >"$folder/text"
"$1" asm "$folder/text" "$folder/image"
