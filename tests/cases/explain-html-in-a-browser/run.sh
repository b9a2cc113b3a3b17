# Pages of texts in a browser: lines, remarks, findings, effects and graphs are those that `explain` prints, links lead somewhere, a key
# answers quickly, nothing is wider than the window, and no script has a fault.
export LC_ALL=C
folder=$(mktemp -d)
trap 'rm -rf "$folder"' EXIT
cd "$folder" || exit 1
program=$1
look() {
    printf '%s: ' "${1##*/}"
    "$program" explain "$1" --html page.html 2>/dev/null
    python3 -B "$top/tests/page/in_browser.py" explained page.html "$2" | sed "s/.*instructions, //"
}
for text in "$top"/examples/*.asm; do look "$text" 1200; done
look "$top/examples/counter.tkv" 360
look "$top/examples/line.asm" 360
"$program" asm "$top/examples/loop.asm" loop.image
look loop.image 1200
printf 'routine main public budget 1\n  LDI w0 70000\n foo </pre></script>\n jmp x\n  RET\n' >faults.asm
look faults.asm 360
printf '; </pre></script><b>&amp; \001\033 \377\r\nroutine main public budget 1\r\n        RET ; a\rb\n' >odd.asm
look odd.asm 1200
# Without scripts the text is there.
"$program" explain "$top/examples/loop.asm" --html page.html
sed 's/<script>/<script type="none">/' page.html >plain.html
chromium --headless=new --no-sandbox --disable-gpu --user-data-dir="$folder/profile" --dump-dom "file://$folder/plain.html" 2>/dev/null | grep -c 'LOOP k0 again ; 2 + 3 k0 steps'
