# A text of each fault but `too many`, which asm-limits has.
sh "$top/tests/listed.sh" "$1" "$(dirname "$0")"
