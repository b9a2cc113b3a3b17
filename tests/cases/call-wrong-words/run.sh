# The first wrong word of a call is named, and nothing runs.
export LC_ALL=C
program=$1
text=$(dirname "$0")/routines.asm
# wrong WORD..: what is said of these words of a call
wrong() {
    "$program" call "$text" "$@" 2>&1
    echo "status $?"
}
wrong none
wrong hidden
wrong Below_ten
wrong ''
wrong 'below_ten 1'
wrong 'no
ne'
wrong below_ten x
wrong below_ten 1 10
wrong below_ten 65536 10
wrong below_ten 1 -1
wrong below_ten 1 +1
wrong below_ten 1 0x1
wrong below_ten 1 ''
wrong below_ten '1 2'
wrong below_ten 1 2 3 4 5 6 7 '8;'
wrong below_ten 1 2 3 4 5 6 7 8 9
wrong below_ten 1 2 3 4 5 6 7 8 x x
wrong none x
wrong below_ten 65535 9 3 4 5 6 7 65535
wrong below_ten 1 0009
wrong below_ten
