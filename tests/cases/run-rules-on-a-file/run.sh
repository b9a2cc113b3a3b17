# Routines on blocks, groups and items of a file on disk do what they do in a session.
export LC_ALL=C
folder=$(mktemp -d)
trap 'rm -rf "$folder"' EXIT
cd "$folder" || exit 1
for text in "$top"/tests/cases/asm-file-rules/*.asm; do
    name=$(basename "$text" .asm)
    echo "$name:"
    "$1" asm "$text" "$name.image" 2>&1 || continue
    "$1" new "$name.vm"
    echo call a | "$1" run "$name.image" "$name.vm" - 2>&1
done
"$1" dump kept.vm
exit 0
