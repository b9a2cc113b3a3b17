# A text that has a fault, or no rows, gets no budgets: the fault is that of `asm`, at the same line, and OUT is as it was. Nor does one with
# a CALL of a routine that does not come before its own: the first such line is named. Nor one with a LOOP that takes from a counter which
# nothing sets on a way to it; but where a LOOP leads ahead, no steps are owed for what is in its counter.
export LC_ALL=C
folder=$(mktemp -d)
trap 'rm -rf "$folder"' EXIT
cd "$folder" || exit 1
program=$1
echo "as it was" >out.asm
faulty() {
    "$program" budget - out.asm 2>&1
    echo "status $?"
}
printf '; a\nroutine a public budget ??\n RET\n' | faulty
printf 'routine a public budget 4294967296\n RET\n' | faulty
printf 'routine a public budget ? ?\n RET\n' | faulty
printf 'routine a public cost ?\n RET\n' | faulty
printf 'routine a public budget ?\n RET\nroutine b budget ?\n RET\nroutine a budget ?\n RET\n' | faulty
printf 'routine a public budget ?\n' | faulty
printf 'routine a public budget ?\n RET\n\nroutine b public budget ?\nb: JMP b\n' | faulty
faulty </dev/null
echo "calls:"
printf 'routine a public budget ?\n CALL a\n RET\n' | faulty
printf 'routine a public budget 9\n CALL b\n RET\nroutine b budget 9\n CALL a\n RET\n' | faulty
printf 'routine a budget ?\n RET\n\nroutine b public budget ?\n CALL a\nx: CALL c ; later\n CALL b\n RET\nroutine c budget ?\n RET\n' | faulty
printf 'routine a public budget ?\n JMP x\n CALL a\nx: RET\n' | faulty
echo "loops:"
printf 'routine a public budget ?\nx: ADD w0 w0 w0\n LOOP k2 x\n RET\n' | faulty
printf 'routine a public budget 9\n RET\n\nroutine b budget ?\n BEQ w0 w1 x\n SETK k1 5\nx:\ny: ; again\n LOOP k1 x\n RET\n' | faulty
printf 'routine a public budget ?\nx: SETK k1 9\ny: LOOP k1 y\n LOOP k0 x\n RET\n' | faulty
printf 'routine a public budget ?\nx: SETK k1 9\ny: LOOP k0 y\nz: LOOP k1 z\n CALL a\n RET\n' | faulty
cat out.asm
printf 'routine a public budget ?\n LOOP k3 x\nx: RET\n' | "$program" budget -
echo "status $?"
echo "streams and files:"
"$program" budget missing.asm 2>&1
echo "status $?"
printf 'routine a public budget ?\n RET\n' >a.asm
"$program" budget a.asm a.asm 2>said
echo "status $?"
head -n 1 said
"$program" budget a.asm ./a.asm 2>&1
echo "status $?"
"$program" budget a.asm - 2>&1 >/dev/full
echo "status $?"
"$program" budget a.asm missing/a.asm 2>&1
echo "status $?"
cat a.asm
