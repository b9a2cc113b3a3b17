# With --json a command prints only objects, one a line, with the members of docs/JSON.md: of accepted and refused texts, of names with quotes
# and control characters, of a closed output, of an empty file. Standard error and the status are as without it.
export LC_ALL=C
here=$(cd "$(dirname "$0")" && pwd)
program=$(readlink -f "$1")
folder=$(mktemp -d)
trap 'rm -rf "$folder"' EXIT
cp "$here"/*.asm "$here"/*.script "$folder"
cd "$folder" || exit 1
cp apart.asm "$(printf 'a"b\\c\007.asm')"
# An array of two elements of three bytes.
printf '\002\000\003\000\000\000\010\000\007\000x\010\001y' >array
python3 -B "$here/objects.py" "$program" "$top/docs/JSON.md" <"$here/commands"
echo "excluded:"
for words in "call add.asm add 1 2 --hex" "call add.asm add 1 2 --signed" "call add.asm add 1 2 --text" "call add.asm add 1 2 --label" \
    "check add.asm --diagnostics" "asm add.asm -" "explain add.asm --script s.script"; do
    "$program" $words --json 2>&1 | head -n 1
done
echo "a closed output:"
"$program" check add.asm --json 2>&1 >&-
echo "status $?"
"$program" call add.asm add 1 2 --json 2>&1 >/dev/full
echo "status $?"
