# Each faulty line of a text is told of, in words. The expected sentences are written by the rules of docs/FORMATS.md.
folder=$(dirname "$0")
for text in "$folder"/texts/*.asm; do
    basename "$text" .asm
    "$1" explain "$text" 2>&1
done
exit 0
