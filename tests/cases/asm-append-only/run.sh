# In a folder that names can only be added to, what is made has the name of its part too, and a line says so. What is there can't be
# replaced, and at most 100 parts come there.
export LC_ALL=C
folder=$(mktemp -d)
trap 'chattr -a "$folder/made" 2>/dev/null; rm -rf "$folder"' EXIT
cd "$folder" || exit 1
program=$1
mkdir made
chattr +a made 2>/dev/null || {
    echo "a folder can't be made so that names can only be added to it" >&2
    exit 77
}

# does COMMAND..: its status, and what it says
does() {
    "$program" "$@" 2>said
    echo "$1: status $?, $(cat said)"
}

does asm "$top/examples/add.asm" made/image
"$program" check made/image
does budget "$top/examples/add.asm" made/text
does new made/file.vm --area 512
"$program" dump made/file.vm
does asm "$top/examples/counter.asm" made/image
"$program" asm "$top/examples/add.asm" image
cmp image made/image
for n in $(seq 4 99); do "$program" new "made/$n.vm" --area 512 2>said; done
cat said
does new made/100.vm --area 512
ls -A made | grep -c part
ls -A made | grep -c vm
