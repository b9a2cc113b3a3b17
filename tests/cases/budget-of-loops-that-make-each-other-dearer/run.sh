"$1" budget "$(dirname "$0")/text.asm"
