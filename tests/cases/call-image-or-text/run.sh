# IN is a text or an image, in a file or on the standard input; the script without a name stands there else.
export LC_ALL=C
folder=$(mktemp -d)
trap 'rm -rf "$folder"' EXIT
cd "$folder" || exit 1
program=$1
text=$top/tests/cases/call-sum/sum.asm
"$program" asm "$text" sum.image
cp "$text" ./-
"$program" call "$text" add 1 1
"$program" call sum.image add 1 2
"$program" call - add 1 3 <"$text"
"$program" call - add 1 4 <sum.image
"$program" call ./- add 1 5
printf 'call add 1 6 ; and more\n\ncall add 65535 8\nrevert' | "$program" call "$text"
printf 'call add 1 8\r\ncall add\r\n' | "$program" call sum.image
: | "$program" call "$text"
printf 'call add 1\ncall and\n' | "$program" call sum.image 2>&1
echo "status $?"
