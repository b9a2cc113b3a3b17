# A refused step is said with its number, and leaves the file as it was; so does a stream that fails.
export LC_ALL=C
folder=$(mktemp -d)
trap 'rm -rf "$folder"' EXIT
cd "$folder" || exit 1
program=$1
"$program" new file.vm --area 65536
printf 'call block\ncall group\nupdate\n' | "$program" run "$top/tests/cases/put-get/places.asm" file.vm -
cp file.vm was.vm
refused() {
    "$@" 2>&1
    echo "status $?"
}
put() {
    refused "$program" put file.vm "$@" <bytes
}
printf 'bytes' >bytes
put 9 16
put 0 16
put 1 18
put 1 16 --item
put 2 16
put 2 18 --item
put 65535 65535 65535 --item
put 1 16 65535
refused "$program" get file.vm 9 16
refused "$program" get file.vm 1 18
refused "$program" get file.vm 2 16
refused "$program" get file.vm 1 16 --item
head -c 65536 /dev/zero >bytes
put 1 16
put 1 16 1
put 2 16 --item
head -c 65535 /dev/zero >bytes
put 1 16
cmp file.vm was.vm
echo "more than an area has:"
"$program" new small.vm --area 512
printf 'call block\nupdate\n' | "$program" run "$top/tests/cases/put-get/places.asm" small.vm -
cp small.vm was.vm
head -c 500 /dev/zero >bytes
refused "$program" put small.vm 1 16 <bytes
cmp small.vm was.vm
echo "a full disk:"
printf 'bytes' >bytes
(trap '' XFSZ; ulimit -f 2; put 1 16)
"$program" get file.vm 1 16 && echo
echo "no place for the output:"
"$program" get file.vm 1 16 2>&1 >/dev/full
echo "status $?"
echo "no input:"
refused "$program" put file.vm 1 16 <.
refused "$program" put missing.vm 1 16 <bytes
refused "$program" put bytes 1 16 <bytes
refused "$program" get missing.vm 1 16
"$program" get file.vm 1 16 && echo
echo "no such words:"
for words in "x 16" "1 0x10" "1 65536" "1 16 -1" "1 16 +1" "1 16 65536" "1 16 1 1" "1 16 --region 1" 1; do
    # shellcheck disable=SC2086
    "$program" put file.vm $words <bytes 2>&1 | head -n 1
done
refused "$program" get file.vm 1 a
