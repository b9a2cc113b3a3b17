# `put --array` reads the JSON object that `get --array --json` prints as the same bytes, and such an object of any layout. A faulty object is a
# fault in one line, and leaves the file as it was.
export LC_ALL=C
folder=$(mktemp -d)
trap 'rm -rf "$folder"' EXIT
program=$(readlink -f "$1")
cd "$folder" || exit 1
"$program" new file.vm
put() {
    "$program" put file.vm "$@"
}
get() {
    "$program" get file.vm "$@"
}
printf '\002\000\014\000\000\000\010\000\001\000\350\003ab\000\000\000\000\000\000\377\377\000\001a,"\\\000\377z\000' | put --new-block 7
get 1 16 --array --fields 2,2,8t --json
echo "the same bytes:"
get 1 16 >bytes
for fields in '' '--fields 2,2,8t' '--fields 12t' '--fields 1,1,10t'; do
    # shellcheck disable=SC2086
    get 1 16 --array --json $fields >rows.json
    printf '' | put 1 16 --array -
    # shellcheck disable=SC2086
    put 1 16 --array rows.json $fields && get 1 16 | cmp - bytes
done
echo "sizes that vary:"
printf '\003\000\000\000\000\000\010\000\016\000\020\000\020\000abcdefg' | put --new-block 7
get 2 16 >bytes
get 2 16 --array --json | tee rows.json
printf '' | put 2 16 --array -
put 2 16 --array rows.json && get 2 16 | cmp - bytes
echo "other objects:"
printf '{"rows" : [\n [5, "\\u0036","s\\u0065ven"],\r\n\t[7,8,9]\n] ,"kind":"array"}' | put 1 16 --array - --fields 2,2,8t
get 1 16 --array --fields 2,2,8t
printf '{"kind":"array","rows":[]}\n' | put 2 16 --array -
get 2 16 | od -An -tx1

echo "faults:"
cp file.vm was.vm
words='--fields 2,2,8t'
object() {
    # shellcheck disable=SC2086
    printf '%s' "$1" | put 1 16 --array - $words 2>&1
    echo "status $?"
}
rows() {
    object '{"kind":"array","rows":'"$1}"
}
object '{"kind":"array","rows":[[1,2,"a"]]'
object '{"kind":"chunk","rows":[[1,2,"a"]]}'
object '{"kind":"array"}'
object '{"kind":"array","rows":[[1,2,"a"]]}]'
object '{"kind":"end","status":0}'
object '{"kind":'"$(printf '%0200d' 0 | tr 0 '[')"
rows '{"1":[1,2,"a"]}'
rows '[[1,2,"a"],3]'
rows '[[1,{},"a"]]'
rows '[[1,2,{}]]'
rows '[[1,2,"a"],[65536,2,"a"]]'
rows '[[99999999999999999999,2,"a"]]'
rows '[[-1,2,"a"]]'
rows '[[1,2.5,"a"]]'
rows '[[1,2,"a"],[1,2]]'
rows '[[]]'
rows '[[1,2,"abcdefghi"]]'
rows '[[1,2,"a\n"]]'
rows '[[1,2,"\\q"]]'
words=''
rows '[[12]]'
rows '["01"]'
rows '[["0"]]'
rows '[["01"]]'
rows '[["01","02"]]'
cmp file.vm was.vm
