# `trace` names lines and labels as the text does, also by line marks; of an image and of a source the labels are those of the listing.
export LC_ALL=C
folder=$(mktemp -d)
trap 'rm -rf "$folder"' EXIT
program=$(readlink -f "$1")
cd "$folder" || exit 1
printf '%s\n' '# 3 "up.m4"' 'routine up public budget ?' '	LDI	w1   007 ; tabs and spaces' '# 1 "body.asm" 1' 'again:' 'two: BLT w0 w1 go_on' \
    '        RET' '# 7 "up.m4" 2' 'go_on:  ADD w0 w0 w1' '	OUT w0 last' 'last:   RET' >marked.asm
"$program" trace marked.asm up 1
"$program" trace marked.asm up 1 --count
"$program" trace marked.asm up 1 --json --steps 2
"$program" trace marked.asm up 1 --html page.html && grep -o '"traced":"[^"]*"' page.html | head -n 1
sed '/^#/d' marked.asm >plain.asm
"$program" trace plain.asm up 1 --steps 2
"$program" budget plain.asm full.asm && "$program" asm full.asm up.image && "$program" trace up.image up 1 --steps 2
printf 'pub fn up(a) {\n    out(a)?;\n}\n' >up.tkv
"$program" trace up.tkv up 1 | grep -c 'OUT w[0-7] L[0-9]'
