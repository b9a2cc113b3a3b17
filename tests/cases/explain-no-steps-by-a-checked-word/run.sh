# A word that is CHKed is not low enough: the CHK has to be by a lower number.
"$1" explain "$(dirname "$0")/text.asm"
