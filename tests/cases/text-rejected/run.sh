"$1" asm "$(dirname "$0")/../../../examples/rejected.asm" /dev/null
