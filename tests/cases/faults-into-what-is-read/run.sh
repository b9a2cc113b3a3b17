# No command says a fault into what it reads, or into a VM file or an image that it is to write: where standard error goes into one, by
# whatever path, nothing is done or said, and the status tells.
folder=$(mktemp -d)
trap 'rm -rf "$folder"' EXIT
cd "$folder" || exit 1
program=$(readlink -f "$1")
"$program" asm "$top/tests/cases/asm-file-block/kept.asm" kept.image
"$program" new book.vm --area 512
printf 'call put 7\nsave\n' | "$program" run kept.image book.vm -
cp "$top/examples/add.asm" text
echo nonsense >wrong
echo nonsense >script
mkdir saved
cp kept.image book.vm text wrong script saved
ln -s book.vm link

# silent INPUT FILE COMMAND..: the command with these files as its standard input and standard error, behind what is there and over it
silent() {
    input=$1
    file=$2
    shift 2
    "$program" "$@" 2>>"$file" <"$input"
    status=$?
    "$program" "$@" 2<>"$file" <"$input"
    echo "$*, of $input, faults into $file: status $status and $?"
    cmp "saved/$file" "$file" && [ "$(echo *)" = 'book.vm kept.image link saved script text wrong' ] || echo "$file is changed"
}

silent /dev/null book.vm call text nope --file book.vm
silent /dev/null book.vm call text nope --file link
silent /dev/null book.vm call missing nope --file book.vm
silent /dev/null book.vm trace text nope --file book.vm
silent /dev/null book.vm run missing book.vm script
silent /dev/null book.vm run kept.image book.vm script
silent script script run kept.image book.vm -
silent script script call text
silent script script
silent script script shell text
silent script book.vm shell text --file book.vm
silent /dev/null book.vm new book.vm
silent /dev/null book.vm copy book.vm text
silent /dev/null book.vm copy missing book.vm
silent /dev/null book.vm dump book.vm
silent /dev/null book.vm diff missing book.vm
silent /dev/null book.vm map book.vm
silent /dev/null book.vm get book.vm 9 16
silent text book.vm put book.vm 9 16
silent /dev/null wrong put book.vm 9 16 --array wrong
silent /dev/null wrong asm wrong image
silent wrong wrong asm - image
silent /dev/null book.vm asm wrong book.vm
silent /dev/null book.vm budget wrong book.vm
silent /dev/null kept.image asm wrong kept.image
silent /dev/null kept.image asm text kept.image
silent /dev/null wrong budget wrong
for command in list check explain; do silent /dev/null wrong $command wrong; done
silent /dev/null script explain text --script script

silent /dev/null book.vm dump book.vm --bogus
silent /dev/null book.vm get book.vm x 16
silent /dev/null book.vm call text nope --file=book.vm --region=1
silent /dev/null text asm text text
silent text text call -

# Where OUT is the standard output, and a VM file.
both() {
    "$program" "$@" 1>>book.vm 2>>book.vm
    status=$?
    "$program" "$@" 1<>book.vm 2<>book.vm
    echo "$*, output and faults into book.vm: status $status and $?"
    cmp saved/book.vm book.vm
}
both asm wrong -
both asm text -
both budget wrong
both budget missing -

# Any other file takes faults.
"$program" call text nope --file book.vm 2>>log
"$program" asm wrong log 2>>log
"$program" asm wrong - >>log 2>&1
cat log
