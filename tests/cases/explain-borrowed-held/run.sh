# What is said of a slot that is borrowed, where it must not be held or an instruction wants another kind; only the lines of the refusals.
folder=$(dirname "$0")
for text in return write locked other marks; do
    echo "$text"
    "$1" explain "$folder/$text.asm" 2>&1 | grep '^; refused\|^rejected'
done
