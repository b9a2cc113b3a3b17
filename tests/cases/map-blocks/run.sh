# A drawing of a file: how much of the area that is read is taken, and how full each block is. No line is longer than it may be.
export LC_ALL=C
folder=$(mktemp -d)
trap 'rm -rf "$folder"' EXIT
cd "$folder" || exit 1
"$1" asm "$top/tests/cases/asm-file-block/kept.asm" kept.image
"$1" new kept.vm --area 512
"$1" map kept.vm --width 60
printf 'call put 1\nsave\ncall put 2\nupdate\n' | "$1" run kept.image kept.vm -
"$1" map kept.vm --width 60
for width in 59 60 80 1000 1001 x; do
    "$1" map kept.vm --width $width 2>/dev/null | awk '{ if (length > most) most = length } END { print "longest " most + 0 }'
done
"$1" map kept.vm | awk '{ if (length > most) most = length } END { print "longest " most }'
