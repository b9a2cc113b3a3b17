# Texts with each way of writing a line, and one that shows at which line a routine begins.
sh "$top/tests/listed.sh" "$1" "$(dirname "$0")"
