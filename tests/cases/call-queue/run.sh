# A queue in an array.
"$1" call "$(dirname "$0")/queue.asm" <"$(dirname "$0")/script"
