# A word that a call puts out is kept under a name, and later lines write it in the place of a number: by `call`, and by `run --vars` alone.
export LC_ALL=C
folder=$(mktemp -d)
trap 'rm -rf "$folder"' EXIT
program=$(readlink -f "$1")
text=$(readlink -f "$(dirname "$0")")/routines.asm
cd "$folder" || exit 1

# lines WORD..: what the script on the standard input comes to with these words of `call`
lines() {
    "$program" call "$text" "$@" 2>&1
    echo "status $?"
}

echo "numbers and handles:"
cat >script <<'END'
; the first word of each call
call make 77 -> h
call peek @$h
	call	peek @$h	->	v_2	; tabs, and a comment
call sum $v_2 3
call sum 1 2 -> v_2
call sum $v_2 $v_2      ; the later one counts
call sum 65535 -> H
call sum $H
call sum $h             ; H is another name
END
lines <script
lines --label <script
lines --hex <script

echo "no word, or one that does not fit:"
printf 'call nothing -> h\ncall sum 1\n\ncall sum $h\ncall sum 2\n' | lines
printf 'call sum 1 2 -> h\ncall nothing -> h\ncall sum $h\n' | lines
printf 'call peek @9 -> h\ncall sum $h\n' | lines
printf 'call sum 5 6 -> n\ncall small $n\ncall sum 2\n' | lines --label
printf 'call sum 4 5 -> n\ncall small $n\n' | lines

echo "strict:"
printf 'call make 1 -> h\ncall peek @$h\ncall peek @9 -> g\ncall sum $g\n' | lines --strict
printf 'call nothing -> h\ncall sum $h\ncall peek @9\n' | lines --strict

echo "bad before anything runs:"
# bad LINE: what is said of the line behind two good ones
bad() {
    printf 'call sum 1 2 -> h\nupdate\n%s\n' "$1" | lines
}
for line in 'call sum $x' 'call sum $' 'call sum $H' 'call sum $h$h' 'call sum -$h' 'call sum $h -> h x' 'call sum 1 ->' \
    'call sum 1 -> a-b' 'call sum 1 -> $h' 'call sum 1 -> a -> b' 'call sum 1->a' 'call -> a' 'update -> a' '-> a' 'call $h' '$h' 'call sum $h @$h' \
    'call peek $h' 'call peek @$x' 'call peek $@h' 'call sum 1 2 3 4 5 6 7 8 $h' 'call sum $g -> g' 'call none $h -> g'; do
    bad "$line"
done | sort | uniq -c | sed 's/^ *//'
printf 'call sum $h\ncall sum 1 -> h\n' | lines

echo "1,024 lines keep a word:"
kept() {
    seq "$1" | sed 's/.*/call sum 1 $h -> h/; 1s/ \$h//' | lines | tail -n 2
}
kept 1024
kept 1025

echo "on a file:"
"$program" new file.vm
printf 'call make 77 -> h\ncall peek @$h\nupdate\n' >script
"$program" run "$text" file.vm script 2>&1
echo "status $?"
"$program" run --vars "$text" file.vm script
"$program" run --vars "$text" file.vm script --label
"$program" dump file.vm | head -n 3
printf 'call sum 1 2\ncall sum $h\n' | "$program" run "$text" file.vm - 2>&1
echo "status $?"
"$program" asm "$text" image
{ xxd -p image; echo end; cat script; } | "$program" 2>&1
echo "status $?"

echo "no place for the output:"
"$program" call "$text" <script 2>&1 >/dev/full
echo "status $?"
