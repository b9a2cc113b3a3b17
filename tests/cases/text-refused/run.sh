"$1" asm "$top/examples/refused.asm" - | "$1" check -
