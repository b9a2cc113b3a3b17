# `dump FILE H` prints one block or group with the bytes of its chunks, `dump FILE H C` one chunk or item; of the saved directory with
# --saved. With --arrays, arrays are printed element by element.
export LC_ALL=C
folder=$(mktemp -d)
trap 'rm -rf "$folder"' EXIT
program=$(readlink -f "$1")
cd "$folder" || exit 1
put() {
    "$program" put file.vm "$@" >/dev/null
}
"$program" new file.vm
printf 'hello' | put --new-block 7
"$program" asm "$top/tests/cases/put-get/places.asm" image && echo save | "$program" run image file.vm -
printf 'HELLO' | put 1 16
printf 'seventeen letters' | put --new-chunk 1
printf 'item' | put --new-group
printf '' | put --new-item 2
# Arrays: two elements of three bytes; elements of two, no and five bytes; none.
printf '\002\000\003\000\000\000\010\000abcdef' | put --new-chunk 1
printf '\003\000\000\000\000\000\010\000\016\000\020\000\020\000xyvwxyz' | put --new-chunk 1
printf '\000\000\003\000\000\000\010\000' | put --new-block 9
dump() {
    echo "dump $*"
    "$program" dump file.vm "$@" 2>&1 | sed 's/ size [0-9]* / size S /; s/"size":[1-9][0-9][0-9]*/"size":S/'
}
dump 1
dump 1 18
dump 001 016
dump 2
dump 2 18
dump 1 --saved
dump 1 16 --saved
dump 3 --arrays
dump 1 20 --arrays
dump 1 22 --arrays
dump 1 22
dump 1 16 --json
dump 2 --json
dump --saved
dump --saved --json
echo "what is not there:"
for words in 9 "9 16" "1 17" "1 30" "2 --saved" "1 18 --saved" 65536 "1 x" "1 16 1" "--arrays --json"; do
    # shellcheck disable=SC2086
    "$program" dump file.vm $words 2>&1 | head -n 1
    # shellcheck disable=SC2086
    "$program" dump file.vm $words >printed 2>/dev/null
    echo "status $?, $(wc -c <printed) bytes"
done
"$program" dump file.vm 9 --json
