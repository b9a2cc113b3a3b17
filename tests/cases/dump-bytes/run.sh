# The bytes of a chunk are printed as `xxd` prints them, below a line with its handle.
export LC_ALL=C
folder=$(mktemp -d)
trap 'rm -rf "$folder"' EXIT
here=$(dirname "$(readlink -f "$0")")
cd "$folder" || exit 1
"$1" asm "$here/words.asm" words.image
"$1" new words.vm
printf 'call put\nupdate\n' | "$1" run words.image words.vm -
"$1" dump words.vm --chunks | tee text
# the bytes themselves: 16706 is `BA`, 32639 two bytes of 127, 8318 `~ `
{ printf 'BA'; head -c 18 /dev/zero; printf '\177\177'; head -c 16 /dev/zero; printf '~ '; } | xxd >wanted
sed -n '/^00/p' text | cmp - wanted && echo "as xxd prints them"
