# Each allocation of `explain` is refused in turn.
image=$(mktemp)
trap 'rm -f "$image"' EXIT
"$1" asm "$top/examples/heap.asm" "$image"
sh "$top/tests/allocations.sh" "$1" explain "$image"
