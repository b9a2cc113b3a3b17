# That a pointer leads into an empty slot is told where that comes about, and not at each instruction behind it: only where another does.
"$1" explain "$(dirname "$0")/text.asm"
