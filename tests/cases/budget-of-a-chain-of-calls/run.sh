# Each of 31 routines calls the one before it: its least budget is the CALL, the budget of that one and the RET. Of two CALLs of a routine that
# may take 3,932,345,540 steps the steps pass what a potential can say: no budget is found, and the line of the routine that calls is named.
export LC_ALL=C
program=$1
{
    printf 'routine r0 budget ?\n RET\n'
    called=0
    while [ "$called" -lt 31 ]; do
        printf 'routine r%d public budget ?\n CALL r%d\n RET\n' $((called + 1)) "$called"
        called=$((called + 1))
    done
} | "$program" budget - | grep routine
heavy='routine a budget ?
 SETK k0 60000
x: SETK k1 65535
y: LOOP k1 y
 LOOP k0 x
 RET
'
echo "many steps:"
printf '%sroutine b budget ?\n CALL a\n RET\n' "$heavy" | "$program" budget - | grep routine
printf '%sroutine b budget ?\n CALL a\n CALL a\n RET\n' "$heavy" | "$program" budget - 2>&1
echo "status $?"
