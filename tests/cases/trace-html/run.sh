# `trace --html` writes a page that loads nothing, and whose run is the one that `trace` prints.
export LC_ALL=C
here=$(readlink -f "$(dirname "$0")")
folder=$(mktemp -d)
trap 'rm -rf "$folder"' EXIT
python3 -B "$here/check.py" "$top" "$1" "$folder"
# The strings of the program are those that tools/page.py makes.
python3 -B "$top/tools/page.py" "$folder/crates" && {
    (cd "$folder/crates" && find . -type f) | while IFS= read -r file; do cmp "$folder/crates/$file" "$top/crates/$file" || exit; done
    echo "the pages are new"
}
# With --html, nothing else is chosen, and no page is written if nothing runs.
cd "$folder" || exit 1
"$1" trace "$top/examples/add.asm" add --html no.html --count 2>&1 | head -n 1
"$1" trace "$top/examples/add.asm" sub --html no.html 2>&1
"$1" trace "$top/examples/add.asm" add --html no/page.html 2>&1 | head -n 1
ls no.html 2>/dev/null
"$1" trace "$top/examples/add.asm" add --html - | head -n 1
