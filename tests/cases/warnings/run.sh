# With --diagnostics, and on a terminal, an accepted text is followed by warnings: a value in w7 that a refusal replaces and that is read in
# both cases, a value that nothing reads, an instruction that is never reached, a counter that is set to 0, a LOOP whose counter is 0. There are at most 20 of them, none
# with --no-warnings, and none of a text that is refused. No status changes.
export LC_ALL=C
folder=$(mktemp -d)
trap 'rm -rf "$folder"' EXIT
cd "$folder" || exit 1
program=$1
said() {
    echo "\$ geos $*"
    "$program" "$@" 2>&1 </dev/null
    echo "status $?"
}
# The length of a run is kept in w7, and LDCB is refused at the end of the chunk.
cat >length.asm <<'E2'
routine length public budget ?
        MNEW s0 w0 out
        LDI w1 3
        LALLOC s0 w2 w1 undo
        DEREF s0 p0 w2 3 undo
        LDI w7 0
        LDI w3 0
        LDI w4 1
        SETK k0 9
next:   LDCB w5 p0 w3 done
        ADD w7 w7 w4
        ADD w3 w3 w4
        LOOP k0 next
done:   OUT w7 undo
undo:   MUNLOCK s0
        MFREE w0 out
out:    RET
E2
said call length.asm length --diagnostics
said call length.asm length --diagnostics --no-warnings
said call length.asm length
# The same with w6 is right.
sed 's/w7/w6/g' length.asm >right.asm
said call right.asm length --diagnostics
cat >others.asm <<'E2'
routine others public budget ?
        LDI w0 1
        LDI w0 2
        SETK k1 0
more:   ADD w1 w1 w0
        LOOP k1 more
        OUT w1 end
end:    RET
        LDI w2 1
        OUT w2 end
        RET
routine private budget ?
        LDI w3 1
        RET
routine calls public budget ?
        LDI w4 1
        CALL private
        RET
E2
"$program" budget others.asm --in-place
for command in "check others.asm" "call others.asm others" "asm others.asm others.image" "trace others.asm calls"; do
    said $command --diagnostics | grep -v ';'
done
said check others.image --diagnostics
# 0 or the number of the refusal: both ways lead to the same instruction.
printf 'routine tried public budget ?\n MLOCK s0 w0 no\n MUNLOCK s0\nno: LDI w7 0\n MFREE w0 told\ntold: OUT w7 end\nend: RET\n' >tried.asm
said check tried.asm --diagnostics
# The inner loop leaves 0 in the counter of the outer one.
cat >inner.asm <<'E2'
routine inner public budget ?
        SETK k0 9
outer:  SETK k0 9
next:   OUT w0 end
        LOOP k0 next
        LOOP k0 outer
end:    RET
E2
said check inner.asm --diagnostics
sed '2s/k0/k1/; 6s/k0/k1/' inner.asm >two.asm
said check two.asm --diagnostics
awk 'BEGIN { print "routine f public budget ?"; for (i = 0; i < 23; i++) print "LDI w0 1"; print "RET" }' >many.asm
said check many.asm --diagnostics | sed -n '2p;21,$p'
printf 'routine f public budget 1\n LDI w0 1\n RET\n' >refused.asm
said check refused.asm --diagnostics | cut -d: -f1-4
# The RET before the label of refusals is missing. A jump to such a label is taken to be meant.
printf 'routine f public budget ?\n OUT w0 e\ne: OUT w7 x\nx: RET\n' >missing.asm
said check missing.asm --diagnostics
printf 'routine f public budget ?\n CHK w0 5 e\n OUT w0 e\n RET\ne: OUT w7 x\nx: RET\n' >meant.asm
said check meant.asm --diagnostics
echo "on a terminal:"
NO_COLOR=1 script -qec "'$program' call length.asm length" /dev/null </dev/null | tr -d '\r'
