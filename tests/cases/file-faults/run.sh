# What is no VM file, or can't be opened, is said in one line, and stays as it is.
export LC_ALL=C
folder=$(mktemp -d)
trap 'rm -rf "$folder"' EXIT
cd "$folder" || exit 1
program=$1
"$program" asm "$top/tests/cases/asm-file-block/kept.asm" kept.image
"$program" new whole.vm --area 512
printf 'call put 1\nupdate\n' | "$program" run kept.image whole.vm -
echo call get >get.script

# Each command that opens a file, on this one.
each() {
    echo "$1:"
    before=$(cksum "$2" 2>&1)
    for command in "run kept.image $2 get.script" "dump $2" "map $2"; do
        "$program" $command 2>&1
        echo "status $?"
    done
    [ "$(cksum "$2" 2>&1)" = "$before" ] || echo "it has changed"
}

each missing missing.vm
each "a folder" "$folder/" | sed "s#$folder#FOLDER#"
each "a name that is a stream elsewhere" -
each "an image" kept.image
: >empty.vm
each empty empty.vm
head -c 512 whole.vm >cut-header.vm
each "cut behind the header" cut-header.vm
head -c 1550 whole.vm >cut-block.vm
each "cut within a block" cut-block.vm
{ head -c 8 whole.vm; printf '\001'; tail -c +10 whole.vm; } >area.vm
each "an area size of 513" area.vm
{ head -c 1536 whole.vm; printf '\002'; tail -c +1538 whole.vm; } >counted.vm
each "two blocks counted, one there" counted.vm
{ head -c 1538 whole.vm; printf '\002'; tail -c +1540 whole.vm; } >handle.vm
each "another handle than the block's" handle.vm
