# A text reversed.
"$1" call "$(dirname "$0")/text.asm" <"$(dirname "$0")/script"
