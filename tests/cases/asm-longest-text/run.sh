# As many bytes as a text may have, comments alone but for its first lines.
folder=$(mktemp -d)
trap 'rm -rf "$folder"' EXIT
{
    printf 'routine one public budget 1\nRET\n;'
    head -c 1048543 /dev/zero | tr '\0' '-'
} >"$folder/text"
"$1" asm "$folder/text" "$folder/image" && "$1" check "$folder/image"
