# Pages of runs in a browser: words, lines and outputs are those of the run, a key answers quickly, nothing is wider than the window, and no
# script has a fault.
export LC_ALL=C
here=$(readlink -f "$(dirname "$0")")
folder=$(mktemp -d)
trap 'rm -rf "$folder"' EXIT
program=$1
walk() {
    width=$1
    shift
    "$program" trace "$@" --html "$folder/page.html" && python3 -B "$top/tests/page/in_browser.py" walk "$folder/page.html" "$width"
}
walk 1200 "$top/examples/heap.asm" main
walk 360 "$top/examples/heap.asm" main
walk 1200 "$top/examples/loop.asm" doubles
walk 1200 "$top/examples/loop.asm" doubles --steps 3
walk 1200 "$top/examples/loop.asm" doubles --steps 9..15
walk 360 "$top/examples/loop.asm" doubles --steps 99..100
walk 1200 "$top/examples/moves.asm" main
walk 1200 "$top/examples/moves.asm" main --steps 6..12
walk 1200 "$top/examples/call.asm" main
walk 1200 "$top/examples/add.asm" add 2 3
walk 1200 "$top/examples/triangles.asm" triangles
walk 1200 "$top/examples/records.asm" start
walk 1200 "$here/frees.asm" main
walk 360 "$here/frees.asm" main
walk 1200 "$here/long.asm" main
walk 1200 "$here/long.asm" main --steps 5000..10003
printf '; </script><b> \001\033\nroutine main public budget 1\n        RET\n' >"$folder/$(printf 'a\033<b>.asm')"
walk 360 "$folder"/a* main
