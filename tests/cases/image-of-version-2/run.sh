# An image of version 2, which has entry states at its key places alone, here the first instruction and the RET to which OUT leads: it is
# accepted, runs, and is listed; cut, longer, or of another version it is faulty; and a row that its edge does not bring is refused.
folder=$(mktemp -d)
trap 'rm -rf "$folder"' EXIT
cd "$folder" || exit 1
case=$top/tests/cases/image-of-version-2
xxd -r -p "$case/add.hex" add.image
wc -c <add.image
"$1" check add.image
(cat "$case/add.hex"; echo end; echo call add) | "$1"
"$1" explain add.image

# The bytes at an offset are set to these.
with() {
    cp add.image other.image
    printf "$2" | dd of=other.image bs=1 seek="$1" conv=notrunc 2>/dev/null
    "$program" check other.image 2>&1
}
program=$1
head -c 333 add.image >other.image
"$1" check other.image 2>&1
(cat add.image; printf '\000') >other.image
"$1" check other.image 2>&1
with 4 '\003'
with 296 '\001\000'
exit 0
