# Each allocation of `explain` of a text is refused in turn, also of one for which no rows are found.
sh "$top/tests/allocations.sh" "$1" explain "$top/examples/heap.asm"
sh "$top/tests/allocations.sh" "$1" explain "$(dirname "$0")/../explain-slots-differ/text.asm"
