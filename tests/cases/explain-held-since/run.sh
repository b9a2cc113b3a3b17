# Since where a slot is held, by the ways to the refusal on which it is held all along; only the lines of the refusals. In in-line.asm and
# ways.asm it is filled in another place too, from which no such way leads; in dead.asm nothing leads to the refusal.
folder=$(dirname "$0")
for text in in-line both loop ways dead; do
    echo "$text"
    "$1" explain "$folder/$text.asm" 2>&1 | grep '^; refused\|^rejected'
done
