# No command prints into what it reads: a standard output that is the image, the text, the script or the VM file, by whatever
# path, is refused before anything is done, and `asm` puts no image into a VM file.
folder=$(mktemp -d)
trap 'rm -rf "$folder"' EXIT
cd "$folder" || exit 1
program=$(readlink -f "$1")
"$program" asm "$top/tests/cases/asm-file-block/kept.asm" kept.image
"$program" new book.vm --area 512
printf 'call put 7\nsave\n' | "$program" run kept.image book.vm -
cp "$top/examples/add.asm" text
printf 'call put 8\nsave\ncall get\n' >script
mkdir saved
cp kept.image book.vm text script saved
ln -s book.vm link

# refused INPUT FILE COMMAND..: the command with these files as its standard input and output, behind what is there and over it
refused() {
    input=$1
    file=$2
    shift 2
    cp saved/* .
    "$program" "$@" 2>&1 >>"$file" <"$input"
    echo "$*, onto $file: status $?"
    cmp "saved/$file" "$file" || echo "$file is changed"
    "$program" "$@" 2>/dev/null 1<>"$file" <"$input"
    echo "status $?"
    cmp "saved/$file" "$file" || echo "$file is changed"
}

refused /dev/null text asm text -
refused text text asm - -
refused /dev/null text asm text image
refused /dev/null book.vm asm text -
refused /dev/null text explain text
for command in list check explain; do refused /dev/null kept.image $command kept.image; done
refused kept.image kept.image list -
refused /dev/null book.vm dump book.vm
refused /dev/null book.vm dump link --chunks
refused /dev/null book.vm map book.vm
refused /dev/null book.vm diff book.vm book.vm
refused /dev/null book.vm copy book.vm new.vm
refused /dev/null book.vm run kept.image book.vm script
refused /dev/null kept.image run kept.image book.vm script
refused /dev/null script run kept.image book.vm script
refused script script run kept.image book.vm -
refused script script
refused script script shell text
refused script book.vm shell text --file book.vm

# Any other file is printed into, and so is a device.
"$program" asm text image
"$program" check image
"$program" asm text - >>kept.image
cmp -n "$(wc -c <saved/kept.image)" saved/kept.image kept.image
"$program" list /dev/null 2>&1 >/dev/null
"$program" explain - </dev/null 2>&1 >/dev/null
(umask 777; "$program" asm text - >closed)
chmod 644 closed
cmp image closed
