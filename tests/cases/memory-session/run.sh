# Each allocation of a session is refused in turn: the one of the README, one with blocks and chunks, one with a block of the file that is
# read again once the region was full, and one with items that move.
work=$(mktemp -d)
trap 'rm -rf "$work"' EXIT

# session TEXT LINE..: the session of a text with these lines of a script
session() {
    "$program" asm "$top/tests/cases/$1.asm" "$work/image" || exit
    shift
    xxd -p "$work/image"
    printf '%s\n' end "$@"
}

program=$1
session asm-file-block/kept "call put 77" "call fill" "call get" >"$work/kept.session"
session asm-file-rules/items "call a" >"$work/items.session"
for session in "$top/examples/add.session" "$top/examples/heap.session" "$work/kept.session" "$work/items.session"; do
    "$program" <"$session"
    INPUT=$session sh "$top/tests/allocations.sh" "$program"
done
