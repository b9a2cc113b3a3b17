#!/bin/sh
# Explains an image: that of a text NAME.asm, or that of a session or of bare digits. Words: the program, the file.
image=$(mktemp)
trap 'rm -f "$image"' EXIT
case $2 in
*.asm) "$1" asm "$2" "$image" || exit ;;
*) sed '/^end/,$d' "$2" | xxd -r -p >"$image" ;;
esac
"$1" explain "$image"
