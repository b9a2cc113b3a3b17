# A drawing of a file of which area B is read, with a group, blocks of two sizes, and a longest block that is only saved.
#
# The script commits three times, so the pair stands in B. Block 1 has a chunk of 2 bytes, block 2 one of 100, which is freed after
# the save, and group 3 an item of 50. A header and a table of two entries take 20 bytes, and a chunk its bytes and 2, up to the next
# multiple of 4: 24, 124 and 72 are used, of 64, 128 and 80, the least sizes with room. A directory takes 8 bytes, and 6 more than
# its size for each block: (8 + 70 + 86) + (8 + 70 + 134 + 86) = 462 of 1024.
# Of 60 columns the area has 58, of which 462 * 58 / 1024 are taken: 26. The longest block has 60 - 25 = 35, the others
# 64 * 35 / 128 = 17 and 80 * 35 / 128 = 21; of these 124 * 35 / 128 = 33, 24 * 17 / 64 = 6 and 72 * 21 / 80 = 18 are used.
folder=$(mktemp -d)
trap 'rm -rf "$folder"' EXIT
cd "$folder" || exit 1
"$1" asm "$top/tests/cases/map-area-b/blocks.asm" blocks.image
"$1" new blocks.vm --area 1024
printf 'call put\nupdate\ncall long 100\ncall group 50\nsave\ncall drop 2\nupdate\n' | "$1" run blocks.image blocks.vm -
"$1" map blocks.vm --width 60
