# The example prints the word that lies in the block that has moved.
"$1" call "$top/examples/moves.asm" main
