"$1" asm "$top/examples/add.asm" - >/dev/full
