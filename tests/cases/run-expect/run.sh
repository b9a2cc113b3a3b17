# With --expect, lines of the script of `run` and `call` may end with `=>` and what they are to print. All output is printed as without it;
# then standard error says which lines printed something else.
export LC_ALL=C
folder=$(mktemp -d)
trap 'rm -rf "$folder"' EXIT
program=$(readlink -f "$1")
text=$top/tests/cases/vars/routines.asm
cd "$folder" || exit 1
"$program" new empty.vm --area 512

# ran SCRIPT WORD..: what `run` prints of the script on an empty file with these words, and then what it says
ran() {
    cp empty.vm file.vm
    "$program" run "$text" file.vm "$@" 2>said
    status=$?
    sed 's/^/error: /' said
    echo "status $status"
}
cat >good <<'END'
; a comment => 7
call sum 1 2 => 3
call make 77 -> h => 1 16
	call peek @$h	=>	77	; tabs
call sum 4 4                ; => 9, which is in the comment
call peek @9 => refused 1
call nothing =>
update =>
END
ran good --vars --expect
"$program" dump file.vm | grep -c uid
"$program" call "$text" --expect <good 2>&1 | tail -n 1
echo "forms:"
printf 'call sum 1 2 => 3\ncall sum 1 65533 => 65534\nupdate =>\ncall peek @9 => refused 1\n' >forms
ran forms --expect --signed --label
ran forms --expect --hex

echo "lines that print something else:"
printf 'call sum 1 2 => 4\ncall peek @9 => 77\ncall sum 2 2 => 4\ncall nothing => 0\ncall sum 1 1 =>\n' >wrong
ran wrong --expect
"$program" run "$text" file.vm wrong --expect 2>&1
"$program" call "$text" --expect <wrong 2>&1 >/dev/null
cp wrong 'two
lines'
"$program" run "$text" file.vm 'two
lines' --expect 2>&1 >/dev/null | tail -n 2

echo "without --expect:"
ran good --vars
ran wrong
"$program" call "$text" <wrong 2>&1
ran good --expect

echo "a commit at the end:"
printf 'call make 5 => 1 16\n' >made
printf 'call make 5 => 2 16\n' >other
for script in made other; do
    ran $script --expect --update
    echo "blocks: $("$program" dump file.vm | grep -c uid)"
done

echo "a script that ends early:"
printf 'call sum 1 1 => 3\ncall peek @9 => refused 1\ncall sum 1 2 => 4\n' >strict
ran strict --expect --strict
ran strict --expect
printf 'call sum 1 1 => 3\ncall nothing -> h\ncall sum $h => 1\ncall sum 1 2 => 4\n' >late
ran late --expect --vars

echo "bad lines:"
printf 'call sum 1 2 => 3\ncal sum 1 2 => 3\ncall sum x => 1\n' >bad
ran bad --expect
ran bad --expect --diagnostics

echo "usage:"
tried() {
    "$program" "$@" --expect 2>&1 </dev/null | head -n 1
}
tried call "$text" sum 1 2
tried call "$text" --json
tried trace "$text" sum
tried test "$text" good
