# Each bad line of a script is told of, in words, for a text and for its image; a good script has none. Nothing runs. The expected
# sentences are written by the rules of docs/FORMATS.md.
folder=$(dirname "$0")
"$1" explain "$folder/text.asm" --script "$folder/bad.script" 2>&1
echo "status $?"
"$1" asm "$folder/text.asm" - | "$1" explain - --script "$folder/bad.script" 2>&1 | tail -n 2
"$1" explain "$folder/text.asm" --script "$folder/good.script"
echo "status $?"
"$1" explain - --script - 2>&1 </dev/null | head -n 1
# With --vars lines may keep names and write them; a bad line keeps its name too.
"$1" explain "$folder/text.asm" --script "$folder/named.script" --vars 2>&1
"$1" explain "$folder/text.asm" --script "$folder/named.script" 2>&1 | sed -n '1p;4p;9p'
"$1" explain "$folder/text.asm" --vars 2>&1 | head -n 1
# A byte order mark is named.
printf '\357\273\277call add 2 3\ncall add 2 3\n' | "$1" explain "$folder/text.asm" --script - 2>&1
exit 0
