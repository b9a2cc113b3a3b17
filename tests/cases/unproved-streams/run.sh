# Closed streams and full ones: an unproved run fails in one line, and no file gets the number of a closed stream.
. "$top/tests/with_stub.sh"
cp "$top/examples/add.asm" .
geos=$folder/top/geos
said() {
    echo "status $1: $(sed '/this run uses an unproved build/d' said)"
}
"$geos" <&- >found 2>said
said $?
"$geos" call add.asm add 2 3 <&- 2>said
said $?
"$geos" call add.asm add 2 3 >&- 2>said
said $?
"$geos" call add.asm add 2 3 >/dev/full 2>said
said $?
"$geos" call add.asm add 2 3 2>&-
echo "status $?"
"$geos" call add.asm add 2 3 2>/dev/full
echo "status $?"
"$geos" call add.asm add 2 3 <&- 2>&-
echo "status $?"
"$geos" call add.asm add 2 3 <&- >&- 2>&-
echo "status $?"
cmp add.asm "$top/examples/add.asm"
made
