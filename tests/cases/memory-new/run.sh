# Each allocation of `new` is refused in turn: the file is made, or nothing is left where it would stand.
work=$(mktemp -d)
trap 'rm -rf "$work"' EXIT
program=$(readlink -f "$1")
cd "$work" || exit 1
mkdir memory whole
# A header with an area size of 512, a selector, and two areas, all of zeros but for 7 bytes.
{ printf 'GVM1\001\000\000\000\000\002'; head -c 2038 /dev/zero; } >whole/file.vm
BEFORE='rm -rf made; mkdir made' AFTER='diff -r made $called' sh "$top/tests/allocations.sh" "$program" new made/file.vm --area 512
