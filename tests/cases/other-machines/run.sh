# Instructions of other machines: the nearest instruction is named, with its page of `geos help`, and none that only has similar letters. MOV
# and JMP are instructions. A word before an instruction, or alone in small letters, is a label.
export LC_ALL=C
folder=$(mktemp -d)
trap 'rm -rf "$folder"' EXIT
program=$(readlink -f "$1")
cd "$folder" || exit 1
cat >words.asm <<'E2'
routine f public budget 99
        BNE w0 w1 l
        bgt w0 w1 l
        SHL w0 w0 1
        lsr w0 w0 1
        OR w0 w0 w1
        not w0 w0
        inc w0
        HALT
        GOTO l
        LD w0 p0
        ST w0 p0
        print w0
        CMP w0 w1
        MOV w0
        JMP
        MUL w0 w0 w1
        DIV w0 w0 w1
end RET
halt
        BLE w0 w1 l
        bge w0 w1 l
        XOR w0 w0 w0
        if w0 < w1
        while w0
        PUSH w0
        NOP
        w0 = w1
        .byte 0
        ADD(w0, w1)
        LDI w0 w1
        SETK k0 w0
        LOOP w0 l
        LDI w0 #5
        LDI w0 SIZE
        out w0 l
        SIZE equ 8
l:      RET
E2
"$program" explain words.asm 2>&1
# Each page that is named is there.
"$program" explain words.asm 2>/dev/null | sed -n 's/.*(geos help \([A-Z]*\)).*/\1/p' | sort -u | while read -r page; do
    "$program" help "$page" | head -n 1 | grep -qw "^$page" || echo "no page $page"
done
