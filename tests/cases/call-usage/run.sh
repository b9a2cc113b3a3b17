# Words that no call has are a usage fault; nothing is read.
export LC_ALL=C
program=$1
wrong() {
    "$program" call "$@" 2>&1 </dev/null | head -n 3
}
wrong -
wrong - --file missing.vm
wrong missing.asm --region 65535
wrong missing.asm a --region 16777217
wrong missing.asm a --most-steps 4294967296
wrong missing.asm a --strict
"$program" call - </dev/null 2>/dev/null
echo "status $?"
"$program" call 2>/dev/null </dev/null
echo "status $?"
"$program" call missing.asm --no-such-word 2>/dev/null </dev/null
echo "status $?"
"$program" call "$top/tests/cases/call-sum/sum.asm" --region 65536 add 7 8
