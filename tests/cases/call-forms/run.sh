# --label prints each line behind its call, --hex, --signed and --text the words in another form; for `call` and for `run`. Only one of the
# three is given.
export LC_ALL=C
here=$(readlink -f "$(dirname "$0")")
folder=$(mktemp -d)
trap 'rm -rf "$folder"' EXIT
cd "$folder" || exit 1
program=$1
forms() {
    "$program" call "$here/forms.asm" "$@" 2>&1
    echo "status $?"
}
forms add 2 3 --label
forms add 2 0 --label
forms add --label
forms both 10 65535 --hex
forms both 32767 32768 --signed
forms both 65535 0 --signed --label
forms greet --text
forms greet --text --label
forms none --text --label
forms none --hex
forms none 0 1 --label
forms add 1 65536 --label
forms sub --hex

echo "scripts:"
printf '; nothing\ncall both 1 2\ncall none\n\ncall add 65535\nupdate\n' >script
"$program" call "$here/forms.asm" --label <script
"$program" call "$here/forms.asm" --hex <script
"$program" new file.vm
"$program" run "$here/forms.asm" file.vm script --text --label
"$program" run "$here/forms.asm" file.vm script --signed
printf 'call add 1 2\ncall add 65536\n' | "$program" call "$here/forms.asm" --label 2>&1
echo "status $?"

echo "a refused commit:"
cp "$top/tests/cases/asm-file-block/kept.asm" .
printf 'call put 1\ncall put 2\ncall put 3\ncall put 4\nupdate\ncall get\nsave\ncall get\n' >script
"$program" new small.vm --area 512
"$program" run kept.asm small.vm script --label --hex
echo "status $?"
"$program" new strict.vm --area 512
"$program" run kept.asm strict.vm script --label --strict 2>&1
echo "status $?"
"$program" new call.vm --area 512
"$program" call kept.asm --file call.vm --strict <script 2>&1
echo "status $?"

echo "no place for the output:"
"$program" call "$here/forms.asm" add 2 3 --label 2>&1 >/dev/full
echo "status $?"

echo "two forms:"
"$program" call "$here/forms.asm" add 2 3 --hex --text 2>&1
echo "status $?"
"$program" run "$here/forms.asm" file.vm script --signed --text 2>&1 | head -n 3
