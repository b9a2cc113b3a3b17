# An image does not take the place of a VM file, nor of one that a link leads to; what begins otherwise is replaced.
export LC_ALL=C
folder=$(mktemp -d)
trap 'rm -rf "$folder"' EXIT
cd "$folder" || exit 1
program=$1
"$program" asm "$top/tests/cases/asm-file-block/kept.asm" kept.image
"$program" new book.vm --area 512
printf 'call put 7\nsave\n' | "$program" run kept.image book.vm -
ln -s book.vm link
printf 'call get\n' >get.script
for image in book.vm link; do
    "$program" asm "$top/examples/add.asm" $image 2>&1
    echo "status $?"
    "$program" run kept.image book.vm get.script
done
printf GVM1 >short
"$program" asm "$top/examples/add.asm" short 2>&1
printf GVM >shorter
printf GVM2abc >other
: >empty
for image in shorter other empty; do
    "$program" asm "$top/examples/add.asm" $image && "$program" check $image
done
ls -A
