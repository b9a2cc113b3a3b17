# Each kind of line that `geos shell` answers. Without a terminal no prompt is printed.
export LC_ALL=C
folder=$(mktemp -d)
trap 'rm -rf "$folder"' EXIT
cd "$folder" || exit 1
program=$1
cat >sum.asm <<'END'
; Prints the sum of two words.
routine add public budget 3
        ADD w0 w0 w1
        OUT w0 end
end:    RET

; Prints a word.
routine show public budget 2
        OUT w0 last
last:   RET
END
"$program" shell sum.asm 2>&1 <<'END'
call add 2 3
  call add 65535 2 ; the sum modulo 65,536

; only a comment
call add 1 2 -> sum
call show $sum
update
save
revert
call show @1
dump
dump 1 16
explain show
trace add 2 3
trace show $sum
undo
quit
call show 9
END
echo "status $?"
# what the commands print too
printf 'help V4\nhelp refused 4\nhelp vnew\nexplain\n' | "$program" shell sum.asm >answers
{ "$program" help V4; "$program" help refused 4; "$program" help VNEW; } >helps
head -n "$(wc -l <helps)" answers | cmp - helps
"$program" explain sum.asm | head -n 11 >explained
tail -n "+$(($(wc -l <helps) + 1))" answers | cmp - explained
printf 'trace add 7 8' | "$program" shell sum.asm >traced
"$program" trace sum.asm add 7 8 | cmp - traced
"$program" new file.vm --area 65536
echo update | "$program" shell --file file.vm
"$program" map file.vm >drawn
echo map | "$program" shell | cmp - drawn
# The list of lines has each word that is a line's first.
for word in call undo dump map explain trace help quit; do
    echo help | "$program" shell | grep -q "^$word " || echo "the help has no $word"
done
# Without IN there is no routine to call.
printf 'update\ncall add 1 2\n' | "$program" shell 2>&1
echo "status $?"
