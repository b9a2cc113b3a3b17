"$1" asm "$(dirname "$0")/../../../examples/add.asm" /
