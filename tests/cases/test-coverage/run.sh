# With --coverage, each line of the text follows with how often it ran in all scripts, and then how many instructions ran.
export LC_ALL=C
folder=$(mktemp -d)
trap 'rm -rf "$folder"' EXIT
program=$(readlink -f "$1")
routines=$top/tests/cases/vars/routines.asm
cd "$folder" || exit 1
# A draft: its budget is filled in. The call of `peek` is refused before its first instruction.
cat >text.asm <<'END'
; Outputs w0 twice.
routine twice public budget ?
        in w0<=9
        SETK k0 1
again:  OUT w0 full
        LOOP k0 again
full:   RET

routine peek public budget 5
        in s0=vm@
        out s0=vm@
        LDI w1 16
        DEREF s0 p0 w1 2 peek_end
        LDW w2 p0 0
        OUT w2 peek_end
peek_end:
        RET
END
printf 'call twice 5 => 5 5\ncall peek @9 => refused 1\ncall twice 1 => 2\n' >a
printf 'call twice 7\nupdate =>\n' >b
"$program" test text.asm a b --coverage
echo "status $?"
"$program" test text.asm a b --coverage --junit with.xml >/dev/null
"$program" test text.asm a b --junit without.xml >/dev/null
cmp with.xml without.xml

echo "names, lent blocks, and no line at the end:"
printf 'call make 77 -> h\ncall peek @$h => 77' >names
printf '%s' "$(cat "$routines")" >routines.asm
"$program" test routines.asm names --coverage | grep -v '^ *-:'
"$program" new file.vm --area 512
"$program" call "$routines" make 5 --file file.vm --update
echo 'call peek @1 => 5' >lent
"$program" test "$routines" lent lent --file file.vm --coverage | grep '[0-9]: \|ran$'

echo "an image:"
"$program" asm "$routines" image
"$program" test image names --coverage | sed -n '1,2p;16,18p;20,$p'

echo "nothing runs:"
echo 'call nobody' >bad
"$program" test "$routines" bad --coverage >said
echo "status $?, $(grep -c '^    #####: ' said) lines"
sed -n 1p said
tail -n 2 said

echo "a source, and the file that it uses:"
cat >source.tkv <<'END'
use "used.tkv";

pub fn choose(a) {
    if a > 3 { out(a)?; } else { out(0)?; }
    double(a);
}
pub fn never() { out(1)?; }
END
cat >used.tkv <<'END'
// Doubles.
fn double(a) {
    out(a + a)?;
}
END
printf 'call choose 5 => 5 10\ncall choose 6\n' >choices
"$program" test source.tkv choices --coverage
printf 'call choose 2 => 0 4\n' >>choices
"$program" test source.tkv choices --coverage | grep '[0-9*]: \|ran$'

echo "many runs:"
cat >many.asm <<'END'
routine many public budget ?
        SETK k0 65535
again:  LOOP k0 again
        RET
END
seq 100 | sed 's/.*/call many/' >hundred
"$program" test many.asm hundred --coverage

echo "faults:"
tried() {
    "$program" test "$@" --coverage 2>&1
    echo "status $?"
}
tried missing a
tried text.asm a missing
printf 'routine bad public budget 1\n MUNLOCK s0\n RET\n' >refused.asm
tried refused.asm a
