# Plays of refused routines in pages of `explain`: the page says what moved, which pointer is stale since when, and what it leads to. Keys step
# through a play, nothing is wider than the window, the colours of both palettes have contrast, and no script has a fault.
export LC_ALL=C
folder=$(mktemp -d)
trap 'rm -rf "$folder"' EXIT
cd "$folder" || exit 1
program=$1
play() {
    "$program" explain "$1" --html page.html 2>/dev/null
    python3 -B "$top/tests/page/in_browser.py" played page.html "$2" | sed 's| // |\n|g; s| / |\n  |g'
}
cat >table.asm <<'END'
; The third LALLOC makes the table grow, so all chunks move.
routine main public budget 20
        MNEW s0 w0 e
        LDI w1 8
        LALLOC s0 w2 w1 u
        DEREF s0 p0 w2 8 u
        LDI w5 26214
        STW w5 p0 0
        LALLOC s0 w3 w1 u
        LALLOC s0 w4 w1 u
        LDW w6 p0 0
        OUT w6 u
u:      MUNLOCK s0
e:      RET
END
cat >block.asm <<'END'
; Block 2 is in the way of block 1, which grows.
routine main public budget 20
        MNEW s0 w0 e
        LDI w1 8
        LALLOC s0 w2 w1 u
        MNEW s1 w3 u
        DEREF s0 p0 w2 8 v
        LDI w4 200
        LALLOC s0 w5 w4 v
        STW w4 p0 0
v:      MUNLOCK s1
u:      MUNLOCK s0
e:      RET
END
cat >lent.asm <<'END'
; Nothing moves if no byte is inserted.
routine put public budget 20
        in s0=vm@
        out s0=vm@
        VDIRTY s0
        DEREF s0 p0 w0 2 u
        LINS s0 w0 w1 w1 u
        STW w1 p0 0
u:      RET
END
play table.asm 1200
play table.asm 360
play block.asm 1200
play lent.asm 1200
play "$top/examples/refused.asm" 1200
play "$top/examples/heap.asm" 1200
"$program" asm table.asm table.image
play table.image 1200
