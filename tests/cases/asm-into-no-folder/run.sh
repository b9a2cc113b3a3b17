cd "$(dirname "$0")"
"$1" asm ../../../examples/add.asm no-such-folder/image
