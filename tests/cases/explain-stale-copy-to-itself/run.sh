"$1" explain "$(dirname "$0")/text.asm"
