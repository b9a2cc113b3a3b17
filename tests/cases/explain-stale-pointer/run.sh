folder=$(dirname "$0")
sh "$folder/../../explained.sh" "$1" "$folder/../asm-stale-pointer/stale.asm"
