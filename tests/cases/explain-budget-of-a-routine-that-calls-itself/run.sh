folder=$(dirname "$0")
sh "$folder/../../explained.sh" "$1" "$folder/text.asm"
