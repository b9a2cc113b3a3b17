# Each allocation of the assembler is refused in turn.
folder=$(mktemp -d)
trap 'rm -rf "$folder"' EXIT
sh "$top/tests/allocations.sh" "$1" asm "$top/examples/call.asm" "$folder/image"
ls "$folder"
