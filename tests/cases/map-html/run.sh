# `map --html` writes a page that loads nothing, with the drawing of the file and the objects that `dump --chunks` prints.
export LC_ALL=C
here=$(readlink -f "$(dirname "$0")")
folder=$(mktemp -d)
trap 'rm -rf "$folder"' EXIT
cd "$folder" || exit 1
"$1" new empty.vm --area 512
"$1" new 'odd<b>.vm'
"$1" call "$top/examples/notes.asm" --file 'odd<b>.vm' --save <"$top/examples/notes.script" >/dev/null
"$1" call "$top/examples/counter.asm" --file 'odd<b>.vm' --update <"$top/examples/counter.script" >/dev/null
cp empty.vm before.vm
python3 -B "$here/check.py" "$top" "$1" empty.vm 'odd<b>.vm'
cmp empty.vm before.vm
"$1" map empty.vm --html no.html --width 60 2>&1 | head -n 1
"$1" map missing.vm --html no.html 2>&1
"$1" map empty.vm --html empty.vm 2>&1
"$1" map empty.vm --html 'odd<b>.vm' 2>&1
ls no.html 2>/dev/null
"$1" map empty.vm --html - | head -n 1
