# An insertion sort.
"$1" call "$(dirname "$0")/sort.asm" sort 500 3 65535 0 3 42 &&
"$1" call "$(dirname "$0")/sort.asm" sort 6 5 4 3 2 1
