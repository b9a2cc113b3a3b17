# What the rows of a public routine say that no caller from outside can meet, or that it may not leave; only the lines of the refusals.
folder=$(dirname "$0")
for text in own marked pointers missing kept; do
    echo "$text"
    "$1" explain "$folder/$text.asm" 2>&1 | grep '^; refused\|^rejected'
done
