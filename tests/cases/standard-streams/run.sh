# A text from the standard input becomes an image on the standard output, which each command reads from the standard input.
"$1" asm - - <"$top/examples/add.asm" | "$1" check -
"$1" asm - - <"$top/examples/add.asm" | "$1" list -
"$1" asm - - <"$top/examples/add.asm" | "$1" explain -
# A text that has a fault gives no byte.
echo nonsense | "$1" asm - - 2>&1
