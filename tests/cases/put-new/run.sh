# `put` makes a block, a group, a chunk or an item, writes the standard input into it, and prints the handles, as `get` takes them. All is one
# commit. If a step is refused, the file is as it was.
export LC_ALL=C
folder=$(mktemp -d)
trap 'rm -rf "$folder"' EXIT
program=$(readlink -f "$1")
cd "$folder" || exit 1
"$program" new file.vm --area 100352
put() {
    "$program" put file.vm "$@"
}
printf 'one' | put --new-block 7
printf 'two' | put --new-block 7 --region 65536
printf 'three' | put --new-group
printf '' | put --new-chunk 1
printf 'five' | put --new-chunk=1
printf 'six' | put --new-item 3
"$program" dump file.vm | sed 's/ size [0-9]*//'
get() {
    "$program" get file.vm "$@" && echo
}
get 1 16
get 2 16
get 3 16 --item
get 1 18
get 1 20
get 3 18 --item
echo "printed as get takes them:"
# shellcheck disable=SC2046
get $(printf 'seven' | put --new-block 8)
echo "the longest:"
head -c 65000 /dev/zero | tr '\0' x >long
put --new-block 1 <long
"$program" get file.vm 5 16 | cmp - long && echo same
"$program" check file.vm

echo "refused:"
cp file.vm was.vm
refused() {
    printf 'bytes' | put "$@" 2>&1
    echo "status $?"
}
refused --new-block 65280
refused --new-chunk 9
refused --new-chunk 3
refused --new-item 9
refused --new-item 1
put --new-group <long 2>&1
head -c 65536 /dev/zero | put --new-block 1 2>&1
cmp file.vm was.vm

echo "no output:"
printf 'late' | put --new-chunk 2 2>&1 >/dev/full
echo "status $?"
get 2 18
cp file.vm was.vm
echo "no input:"
put --new-chunk 2 2>&1 <.
echo "status $?"
printf 'bytes' | put --new-chunk 2 2>&1 >>file.vm
echo "status $?"
echo "wrong words:"
for words in "" 1 "1 --new-group" "--new-group 1 16" "--new-group --new-block 1" "--new-chunk 1 --new-item 3" "--new-item 3 --item" "--new-block 65536" "--new-block -1" --new-chunk; do
    # shellcheck disable=SC2086
    put $words 2>&1 </dev/null | head -n 1
done
cmp file.vm was.vm
