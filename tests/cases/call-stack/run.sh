# A stack in a chunk that grows.
"$1" call "$(dirname "$0")/stack.asm" <"$(dirname "$0")/script"
