# `get --array` prints the elements of an array as rows, or as a JSON object, and `put --array` replaces them by rows. What `get` prints, `put`
# reads as the same bytes. A wrong row is a fault in one line, and leaves the file as it was.
export LC_ALL=C
folder=$(mktemp -d)
trap 'rm -rf "$folder"' EXIT
program=$(readlink -f "$1")
cd "$folder" || exit 1
"$program" new file.vm
put() {
    "$program" put file.vm "$@"
}
get() {
    "$program" get file.vm "$@"
}
printf '\002\000\014\000\000\000\010\000\001\000\350\003ab\000\000\000\000\000\000\377\377\000\001a,"\\\n\377z\000' | put --new-block 7
get 1 16 --array --fields 2,2,8t
get 1 16 --array
get 1 16 --array --fields 2,2,8t --json
get 1 16 --array --json
get 1 16 --array --fields 1,1,1,1,3t,1,1,3t
echo "the same bytes:"
get 1 16 >bytes
for fields in '' '--fields 2,2,8t' '--fields 12t' '--fields 1,1,10t'; do
    # shellcheck disable=SC2086
    get 1 16 --array $fields >rows.csv
    # shellcheck disable=SC2086
    put 1 16 --array rows.csv $fields && get 1 16 | cmp - bytes
done
echo "other rows:"
printf '5,6,seven\r\n7,8,""\n"9",10,"a ""b"""' | put 1 16 --array - --fields 2,2,8t
get 1 16 --array --fields 2,2,8t
printf '' | put 1 16 --array -
get 1 16 | od -An -tx1
get 1 16 --array
echo "sizes that vary:"
printf '\003\000\000\000\000\000\010\000\016\000\020\000\020\000abcdefg' | put --new-block 7
get 2 16 --array
printf '""\n0102fF\n\n' | put 2 16 --array -
get 2 16 | od -An -tx1
printf 'an item' | put --new-group
printf '\001\000\002\000\000\000\010\000\012\000' | put --item 3 16
printf '11\n12\n' | put --item 3 16 --array - --fields 2
get --item 3 16 --array --fields 2

echo "faults:"
printf 'bytes' | put --new-block 7
cp bytes 1.bytes && put 1 16 <1.bytes
cp file.vm was.vm
fault() {
    "$@" 2>&1
    echo "status $?"
}
fault get 4 16 --array
fault get 9 16 --array
fault get 1 16 --array --fields 2,2
fault get 2 16 --array --fields 2,2
fault put 4 16 --array bytes
fault put 1 16 --array none.csv
fault put 1 16 --array .
printf '1,2,a\n1,2\n' >bad.csv
fault put 1 16 --array bad.csv --fields 2,2,8t
for row in '70000,1,a' '1,+2,a' '1,,a' '1,2,abcdefghi' '1,2,"a' '1,2,a"b' '1,2,"a"b' '1,2,\q' '1,2,\x0' '1,2,a,b'; do
    printf '%s\n' "$row" | fault put 1 16 --array - --fields 2,2,8t
done
printf '1,2,\001\n' | fault put 1 16 --array - --fields 2,2,8t
printf '256,0,a\n' | fault put 1 16 --array - --fields 1,1,10t
printf '0g\n' | fault put 2 16 --array -
printf '012\n' | fault put 2 16 --array -
printf '01\n' | fault put 1 16 --array -
printf '01,02\n' | fault put 2 16 --array -
head -c 1048577 /dev/zero | fault put 1 16 --array -
yes 00 | head -n 70000 | fault put 2 16 --array -
get 1 16 --array 2>&1 >/dev/full
echo "status $?"
cmp file.vm was.vm
for words in '1 16 --fields 2' '1 16 --array - --fields 3' '1 16 --array - --fields 2,,2' '1 16 --array - --fields 0t' '1 16 --array - --fields 65528t' \
    '1 16 0 --array -' '--new-block 7 --array -'; do
    # shellcheck disable=SC2086
    put $words 2>&1 </dev/null | head -n 1
done
get 1 16 --json 2>&1 | head -n 1
