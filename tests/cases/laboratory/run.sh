# The laboratory in a browser: it explains texts as geos does, the scripts of the examples print what they print with geos, and the steps of calls
# are those that geos traces.
. "$top/tests/with_library.sh"
"$top/library/wasm.sh" takhvoi.wasm >log 2>&1 || { tail -n 3 log; exit 1; }
python3 -B "$top/tools/laboratory.py" takhvoi.wasm page.html
python3 -B "$top/tests/page/laboratory.py" "$top" "$1" >page.json
for width in 1200 360; do python3 -B "$top/tests/page/in_browser.py" laboratory page.html $width; done
# The page loads nothing, and can be sent by mail.
grep -cE '(src|href)="?https?:' page.html
[ "$(wc -c <page.html)" -lt 600000 ] && echo small
