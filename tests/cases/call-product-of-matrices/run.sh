# Products of matrices.
"$1" call "$(dirname "$0")/matrices.asm" <"$(dirname "$0")/script"
