# The faults of a text are those of `asm`, and of `check` behind it; those of an image are those of `check`. They come before what is wrong
# with FILE, but for those of an image, and with a call.
export LC_ALL=C
folder=$(mktemp -d)
trap 'rm -rf "$folder"' EXIT
cd "$folder" || exit 1
program=$1
# each WORD..: what is said of these words of `call`
each() {
    "$program" call "$@" 2>&1 </dev/null
    echo "status $?"
}
printf 'routine a public budget 1\n LDI w0\n RET\n' >faulty.asm
printf 'routine a public budget 2\nb: JMP b\n' >endless.asm
printf 'routine a public budget 1\n LDI w0 1\n RET\n' >short.asm
printf 'routine a public budget 1\n RET\n' >good.asm
printf GRT1 >cut.image
: >empty
"$program" asm short.asm short.image
"$program" asm good.asm good.image
echo bad >bad.vm
for text in faulty endless; do
    "$program" asm $text.asm image 2>&1
    each $text.asm a
    each $text.asm --file missing.vm
done
for image in cut short; do
    "$program" check $image.image 2>&1
    each $image.image none
    each $image.image --file bad.vm
    each $image.image --file missing.vm
done
each short.asm none
each empty a
each missing.asm a
each . a
each good.asm --file missing.vm a
each good.asm --file . a
each good.asm --file - a
each good.asm --file bad.vm none
each good.image none
ls
