# A private routine that allocates.
"$1" call "$(dirname "$0")/chunks.asm" two 8 4 &&
"$1" call "$(dirname "$0")/chunks.asm" two 65535 4
