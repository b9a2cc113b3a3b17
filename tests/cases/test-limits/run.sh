# Scripts at the limits of a script, and past them; wrong words on the command line.
export LC_ALL=C
folder=$(mktemp -d)
trap 'rm -rf "$folder"' EXIT
program=$(readlink -f "$1")
text=$top/tests/cases/vars/routines.asm
cd "$folder" || exit 1

# tested WORD..: what `test` prints of the text with these words
tested() {
    "$program" test "$text" "$@" 2>&1
    echo "status $?"
}
# 1,048,576 bytes: a comment, its line end, and 17 bytes
{ printf ';%1048557s\n' ''; printf 'call sum 1 2 => 3'; } >longest
wc -c <longest
tested longest
{ cat longest; echo; } >longer
tested longer

seq 1024 | sed 's/.*/call sum 1 -> h => 1/' >names
tested names
echo 'call sum 1 -> h => 1' >>names
tested names

# A call that outputs 1,024 words: they are 2,047 bytes with the spaces between them.
cat >many.asm <<'END'
routine many public budget ?
        SETK k0 1023
again:  OUT w0 full
        LOOP k0 again
full:   RET
END
# words N: a line that expects 7 so many times
words() {
    echo "call many 7 =>$(yes ' 7' | head -n "$1" | tr -d '\n')"
}
{ words 1024; words 1023; } >many
"$program" test many.asm many >printed
cut -c 1-20 printed
wc -c <printed

echo "usage:"
tested longest --region 65535
tested longest --region 65536
tested - -
"$program" test - - <names 2>&1 | head -n 1
"$program" test - names - <names 2>&1 | head -n 1
"$program" test "$text" names --strict 2>&1 | head -n 1
