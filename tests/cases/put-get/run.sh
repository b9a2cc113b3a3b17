# `put` replaces the bytes of a chunk, or writes over some of them, with zeros where it grows; `get` prints them. So with the items of a group.
export LC_ALL=C
here=$(readlink -f "$(dirname "$0")")
folder=$(mktemp -d)
trap 'rm -rf "$folder"' EXIT
cd "$folder" || exit 1
program=$1
"$program" new file.vm
printf 'call block\ncall block\ncall group\nsave\n' | "$program" run "$here/places.asm" file.vm -
"$program" get file.vm 1 16
echo
put() {
    "$program" put file.vm "$@" && "$program" get file.vm "$1" "$2" | od -An -c
}
printf 'hello' | put 1 16
printf 'J' | put 1 16 0
printf 'xyz' | put 1 16 7
printf 'ly\n' | put 1 16 4
printf '' | put 1 16 3
printf 'cd' | put 00002 016
printf '' | put 1 16
printf 'tail' | put 1 16 2
"$program" get file.vm 2 16 && echo
echo "items:"
"$program" get file.vm 3 16 --item | od -An -c
printf 'an item' | "$program" put --item file.vm 3 16
printf '!' | "$program" put file.vm 3 16 7 --item
"$program" get --item file.vm 3 16 && echo
"$program" dump file.vm
echo "many bytes:"
head -c 60000 /dev/zero | tr '\0' 'x' >many
"$program" put file.vm 2 16 <many
"$program" get file.vm 2 16 | cmp - many && echo "the same"
"$program" get file.vm 2 16 --region 65536 | wc -c
echo "from one chunk to another:"
"$program" get file.vm 1 16 | "$program" put file.vm 2 16 && "$program" get file.vm 2 16 | od -An -c
