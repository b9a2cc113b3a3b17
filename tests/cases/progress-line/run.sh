# On a terminal, a run of more than two seconds shows how many of its steps are done. This line is gone before the output is printed. A short
# run shows no line, and a run without a terminal shows none.
export LC_ALL=C
folder=$(mktemp -d)
trap 'rm -rf "$folder"' EXIT
cd "$folder" || exit 1
program=$(readlink -f "$1")
cat >spin.asm <<'E2'
routine spin public budget ?
        in w0<=40000
        LDI w1 26
        SETKW k0 w0
outer:  SETK k1 30000
inner:  MULI w2 w2 3
        ADD w2 w2 w1
        LOOP k1 inner
        LOOP k0 outer
        OUT w1 x
x:      RET
E2
# shown WORD..: what a terminal shows, a line for each time that the cursor goes back to the left
shown() {
    echo "\$ geos $* on a terminal"
    script -qec "'$program' $*" /dev/null </dev/null | tr -d '\n' | tr '\r' '\n' |
        sed 's/\x1b\[K/erased /; s/^erased [0-9]* of [0-9]* steps$/erased N of M steps/' | uniq
}
"$program" call spin.asm spin 26000 >unseen 2>&1 &
shown call spin.asm spin 3
shown call spin.asm spin 26000
"$program" new file.vm
printf 'call spin 26000\ncall spin 2\n' >script
shown run spin.asm file.vm script --hex
wait
echo '$ geos call spin.asm spin 26000 without a terminal'
cat unseen
