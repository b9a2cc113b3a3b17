# Read by the cases of the address book, which is the program `book` in each language: what it prints is the same in each.
book b.vm add Bohr 17 && book b.vm add Curie 29 && book b.vm add Cantor 31 && book b.vm list
echo "from B to B: $(book b.vm run "$top/library/starting.asm" 66 66)"
echo "from C to Z: $(book b.vm run "$top/library/starting.asm" 67 90)"
# A file that is none, a text with a fault, one for which no rows are found, one that takes no block, and words that say nothing.
echo none >none.vm
echo 'routine f public budget x' >fault.asm
book none.vm list 2>&1
book b.vm run fault.asm 2>&1
book b.vm run "$top/examples/rejected.asm" 2>&1
book b.vm run "$top/examples/add.asm" 1 2 2>&1
book b.vm run none.asm 2>&1
book b.vm remove Bohr 2>&1
echo "status $?"
