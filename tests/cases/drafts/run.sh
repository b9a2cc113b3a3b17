# A draft, in which a `?` stands for the budget of a routine, is run, checked, listed, traced and explained with the least budgets; `asm` takes
# numbers only. Of a draft that is refused all is said as of any text. `budget` writes nothing for a text that the verifier refuses, and with
# --in-place it changes the text itself.
export LC_ALL=C
folder=$(mktemp -d)
trap 'rm -rf "$folder"' EXIT
cd "$folder" || exit 1
program=$1
said() {
    echo "\$ geos $*"
    "$program" "$@" 2>&1 </dev/null
    echo "status $?"
}
cat >draft.asm <<'E2'
; Adds two words.
routine add public budget ? ; the least
        ADD w0 w0 w1
        OUT w0 end
end:    RET
E2
cp draft.asm before.asm
said call draft.asm add 2 3
said check draft.asm
said list draft.asm | grep -c 'budget 3$'
said trace draft.asm add 2 3 | tail -n 2
said explain draft.asm | sed -n '3p;$p'
printf 'call add 2 3\n' | "$program" call draft.asm
said asm draft.asm out
cmp draft.asm before.asm
echo "in place:"
chmod 640 draft.asm
said budget draft.asm --in-place
sed -n 2p draft.asm
stat -c %a draft.asm
said budget draft.asm --in-place
said asm draft.asm out
said budget before.asm out.asm --in-place | sed -n '2p;$p'
said budget - --in-place | sed -n '2p;$p'
"$program" new a.vm --area 512
said budget a.vm --in-place
echo "refused:"
cat >stale.asm <<'E2'
routine f public budget ?
        MNEW s0 w0 end
        LDI w1 8
        LALLOC s0 w2 w1 undo
        DEREF s0 p0 w2 8 undo
        LALLOC s0 w3 w1 undo
        LDW w4 p0 0
undo:   MUNLOCK s0
        MFREE w0 end
end:    RET
E2
cp stale.asm before.asm
said call stale.asm f
said check stale.asm --diagnostics | cut -d: -f1-4
said budget stale.asm --in-place
said budget stale.asm out.asm
ls out.asm 2>&1
cmp stale.asm before.asm
echo "faulty:"
printf 'routine f public budget ?\n ADD w0 w0\n RET\nroutine g budget ?\n RET\n' >faulty.asm
said check faulty.asm
said explain faulty.asm | cut -d: -f1
said budget faulty.asm --diagnostics | cut -d: -f1-2
echo "two calls that pass the most steps together:"
cat >twice.asm <<'E2'
routine big public budget ?
        SETK k0 30000
a:      SETK k1 30000
b:      MULI w0 w0 3
        ADD w0 w0 w1
        LOOP k1 b
        LOOP k0 a
        RET
routine two public budget ?
        CALL big
        CALL big
        RET
E2
said explain twice.asm
