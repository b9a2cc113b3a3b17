# Pages of VM files in a browser: blocks and bytes are those of the file, nothing is wider than the window, and no script has a fault.
export LC_ALL=C
folder=$(mktemp -d)
trap 'rm -rf "$folder"' EXIT
cd "$folder" || exit 1
program=$1
look() {
    "$program" map "$1" --html page.html
    python3 -B "$top/tests/page/in_browser.py" mapped page.html "$2"
}
"$program" new empty.vm
look empty.vm 1200
"$program" new file.vm
for name in notes accounts lend; do
    "$program" call "$top/examples/$name.asm" --file file.vm --save <"$top/examples/$name.script" >/dev/null
done
"$program" call "$top/examples/counter.asm" --file file.vm --update <"$top/examples/counter.script" >/dev/null
look file.vm 1200
look file.vm 360
