# `--language` says in which language a text is: of the standard input, and of a file whose ending says another one.
export LC_ALL=C
folder=$(mktemp -d)
trap 'rm -rf "$folder"' EXIT
program=$(readlink -f "$1")
cd "$folder" || exit 1
echo 'pub fn add(a, b) { out(a + b)?; }' >add.tkv
printf 'routine add public budget 3\n        ADD w0 w0 w1\n        OUT w0 end\nend:    RET\n' >add.asm
cp add.tkv add.txt
cp add.asm asm.tkv
cp add.tkv tkv.asm
echo 'call add 2 3 => 5' >script
echo 'call add 2 3' >plain
"$program" new file.vm --area 512

# each LANGUAGE FILE: what commands print of a file by its path, and of the same text on the standard input
each() {
    echo "$2 $1:"
    "$program" call "$2" --language "$1" add 2 3
    "$program" call - add 2 3 --language "$1" <"$2"
    "$program" call "$2" --language="$1" <script --expect
    "$program" run "$2" file.vm script --expect --language "$1"
    "$program" run - file.vm script --expect --language "$1" <"$2"
    "$program" test --language "$1" "$2" script
    "$program" test - script --language "$1" <"$2"
    "$program" check "$2" --language "$1"
    "$program" check - --language "$1" --json <"$2"
    "$program" asm "$2" --language "$1" - | sha256sum
    "$program" asm - - --language "$1" <"$2" | sha256sum
    "$program" list - --language "$1" <"$2" | grep -c ADD
    "$program" explain - --language "$1" <"$2" | grep -c ADD
    "$program" explain - --language "$1" --script plain <"$2"
    "$program" trace - --language "$1" add 2 3 --count <"$2" | grep -c ADD
    "$program" fmt - --language "$1" <"$2" | cmp - "$2"
}
each tkv add.txt >of-tkv
for file in tkv.asm add.tkv; do
    each tkv "$file" | sed "1s/.*/add.txt tkv:/" | cmp - of-tkv
done
sed 's/^[0-9a-f]\{64\} .*/image/' of-tkv
each asm add.asm >of-asm
each asm asm.tkv | sed '1s/.*/add.asm asm:/' | cmp - of-asm
sed 's/^[0-9a-f]\{64\} .*/image/' of-asm
"$program" asm add.tkv - | sha256sum | grep -c -f - of-tkv
"$program" budget asm.tkv --language asm | cmp - add.asm

echo "faults:"
# said WORD..: what these words of the program print
said() {
    "$program" "$@" 2>&1 | head -n 1
}
said check - <add.tkv
said check tkv.asm
said check asm.tkv
said check - --language tkv <add.asm
said budget add.tkv
said budget - --language tkv <add.tkv
said asm - out --language tkv --all-rows <add.tkv
said check add.tkv --language c
said check add.tkv --language
said new other.vm --language tkv
