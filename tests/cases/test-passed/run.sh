# Lines print what they say after `=>`: numbers, a refusal, or nothing. A line without `=>` may print anything.
export LC_ALL=C
folder=$(mktemp -d)
trap 'rm -rf "$folder"' EXIT
program=$(readlink -f "$1")
text=$top/tests/cases/vars/routines.asm
cd "$folder" || exit 1

# tested WORD..: what `test` prints of the text with these words
tested() {
    "$program" test "$text" "$@" 2>&1
    echo "status $?"
}
cat >a.script <<'END'
; a comment => 7
call sum 1 2 => 3
call sum 1 2                ; => 4, which is in the comment
	call	sum	4	5	=>	9	; tabs
call make 77 -> h => 1 16
call make 78 =>   2 	 16   ; two words, in order
call peek @$h => 77
call peek @9 => refused 1
call nothing =>
call nothing => ; nothing
update =>
save
call small 9 => 9
call peek @9

END
tested a.script
tested - <a.script
"$program" asm "$text" image
"$program" test image a.script
"$program" test - a.script <"$text"

echo "other ends of lines, and no lines:"
printf 'call sum 1 2 => 3\r\ncall nothing =>\r\n\r\ncall sum 2 2 => 4' >ends.script
tested ends.script
: >empty.script
tested empty.script
printf 'call sum 1 2\n' >silent.script
tested silent.script

echo "a source:"
printf 'call add => 5\n' >add.script
"$program" test "$top/examples/add.tkv" add.script
"$program" test "$top/examples/add.asm" add.script
