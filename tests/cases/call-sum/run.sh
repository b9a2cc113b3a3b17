# A sum: one command, from a text to what it prints.
"$1" call "$(dirname "$0")/sum.asm" add 2 3
