# `copy` makes the file that docs/FILES.md says, with the pair of the other file in the first area. What was refused 6, since an area was too
# small, is done in a copy with larger areas.
export LC_ALL=C
folder=$(mktemp -d)
trap 'rm -rf "$folder"' EXIT
cd "$folder" || exit 1
program=$1
"$program" asm "$top/tests/cases/asm-file-block/kept.asm" kept.image
"$program" asm "$top/tests/cases/file-faults-elsewhere/fetched.asm" fetched.image

# copied FILE AREA [saved]: `copy` with this area, and with --saved, makes the file that it has to make; the other file stays
copied() {
    rm -f new.vm
    cp "$1" was.vm
    "$program" copy "$1" new.vm --area "$2" ${3:+--saved} 2>&1
    echo "$1 $2 $3: status $?"
    cmp was.vm "$1"
    python3 -B "$top/tests/copied_file.py" "$@" | cmp - new.vm
    "$program" check new.vm
}

echo "a new file, and one with a block, a group, a map block and a map item:"
"$program" new empty.vm --area 512
copied empty.vm 512
"$program" new all.vm --area 2048
printf 'call make\nsave\ncall make\nupdate\n' | "$program" run fetched.image all.vm -
copied all.vm 2048
copied all.vm 1024 saved
printf 'call make\nupdate\n' | "$program" run fetched.image all.vm -
copied all.vm 1024
copied all.vm 16777216

echo "without --area:"
"$program" copy all.vm same.vm && wc -c <same.vm
python3 -B "$top/tests/copied_file.py" all.vm 2048 | cmp - same.vm

echo "a larger area:"
# 7 blocks of 64 bytes take 7 * 70 + 8 bytes, an empty directory 8: 506 bytes. With the eighth block they are 576.
"$program" new small.vm --area 512
printf 'call put 1\n%.0s' 1 2 3 4 5 6 7 >fill.script
echo update >>fill.script
"$program" run kept.image small.vm fill.script
printf 'call put 2\nupdate\n' >more.script
"$program" run kept.image small.vm more.script
"$program" copy small.vm large.vm --area 1024
"$program" run kept.image large.vm more.script
echo call get | "$program" run kept.image large.vm -
echo call get | "$program" run kept.image small.vm -

echo "a smaller area:"
"$program" new big.vm
printf 'call put 7\nsave\n' | "$program" run kept.image big.vm -
"$program" copy big.vm less.vm --area 512
wc -c <less.vm
printf 'call put 8\nupdate\ncall get\nrevert\ncall get\n' | "$program" run kept.image less.vm -

echo "an area that is too small:"
copied small.vm 512
rm -f new.vm
"$program" copy large.vm new.vm --area 512 2>&1
echo "status $?"
ls -A | grep -e '^new.vm$' -e geos-part
copied large.vm 1024

echo "saved blocks that no area has twice:"
"$program" new chunk.vm
printf 'call block\nsave\n' | "$program" run "$top/tests/cases/put-get/places.asm" chunk.vm -
head -c 60000 /dev/zero | "$program" put chunk.vm 1 16
python3 -B - "$top/tests" <<'END'
import sys
sys.path.insert(0, sys.argv[1])
from file_reading import EMPTY, Directory, read, spell
with open("chunk.vm", "rb") as file:
    (_, user, block), = read(file.read())[0].entries
# A block begins with its handle.
blocks = tuple((handle, user, handle.to_bytes(2, "little") + block[2:]) for handle in range(1, 201))
with open("saved.vm", "wb") as file:
    file.write(spell(16777216, 0, (EMPTY, Directory(blocks, 0, 0, 0))))
END
rm new.vm
"$program" copy saved.vm new.vm --saved 2>&1
echo "status $?"
"$program" copy saved.vm new.vm && cmp saved.vm new.vm
