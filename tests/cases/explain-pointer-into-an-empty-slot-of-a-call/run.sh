# Only the lines of the refusals.
"$1" explain "$(dirname "$0")/text.asm" | grep '^;'
