# Where a routine is named, the standard input stays for what comes next; it may be closed.
export LC_ALL=C
here=$(dirname "$0")
printf 'all that\nwas there\n' | {
    "$1" call "$top/tests/cases/call-sum/sum.asm" add 2 3
    cat
}
"$1" call "$top/tests/cases/call-sum/sum.asm" add 20 30 <&-
"$1" call "$top/tests/cases/call-sum/sum.asm" 2>&1 <&-
echo "status $?"
