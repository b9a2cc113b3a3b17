# `explain --html` writes a page that loads nothing, with the text and the objects that `explain` prints, and ends as `explain` does.
export LC_ALL=C
here=$(readlink -f "$(dirname "$0")")
folder=$(mktemp -d)
trap 'rm -rf "$folder"' EXIT
cd "$folder" || exit 1
python3 -B "$here/check.py" "$top" "$1" || exit
printf 'routine main public budget 1\n        RET\n' >main.asm
# With --html, nothing else is chosen, and no page is written of what is not read.
"$1" explain main.asm --html no.html --json 2>&1 | head -n 1
"$1" explain main.asm --html no.html --script s.script 2>&1 | head -n 1
"$1" explain missing.asm --html no.html 2>&1
printf 'GRT1' >bad.image
"$1" explain bad.image --html no.html 2>&1
"$1" explain main.asm --html main.asm 2>&1
"$1" explain main.asm --html no/page.html 2>&1 | head -n 1
ls no.html 2>/dev/null
"$1" explain main.asm --html - | head -n 1
"$1" explain - --html - <main.asm | grep -c 'public budget 1'
