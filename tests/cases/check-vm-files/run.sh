# `check` reads all of a VM file: it prints `sound`, or a line for each fault, and standard error names the first one. Block 1 is at 1544, and
# has a chunk of two bytes at 20 and a free chunk of 40 at 24.
export LC_ALL=C
folder=$(mktemp -d)
trap 'rm -rf "$folder"' EXIT
cd "$folder" || exit 1
program=$1
"$program" asm "$top/tests/cases/asm-file-block/kept.asm" kept.image
"$program" new whole.vm --area 512
printf 'call put 1\nupdate\n' | "$program" run kept.image whole.vm -
"$program" new both.vm --area 512
printf 'call put 1\nsave\n' | "$program" run kept.image both.vm -

# checked WHAT FILE: what is said of this file, which stays as it is
checked() {
    echo "$1:"
    before=$(cksum "$2")
    "$program" check "$2" 2>&1
    echo "status $?"
    [ "$(cksum "$2")" = "$before" ] || echo "it has changed"
}

# changed WHAT AT BYTES [FILE]: the same of a copy of the file with these bytes from an offset on
changed() {
    cp "${4:-whole.vm}" changed.vm
    printf "$3" | dd of=changed.vm bs=1 seek="$2" conv=notrunc 2>/dev/null
    checked "$1" changed.vm
}

checked "one block" whole.vm
checked "two directories" both.vm
changed "another byte in a chunk" 1566 '\052'
changed "a table entry past the end" 1560 '\106'
changed "a size word past the end" 1564 '\310'
changed "a table entry in the header" 1560 '\010'
changed "free bytes counted wrongly" 1558 '\054'
changed "the same of a saved block" 1636 '\054' both.vm
changed "a table past the end" 1554 '\144'
changed "another handle word" 1544 '\011'
changed "another handle" 1538 '\002'
changed "a saved block too many" 1614 '\001'
changed "too many blocks" 1536 '\001\004'
changed "another area size" 8 '\001'
changed "another version" 4 '\002'
changed "a byte in the header" 100 '\007'
head -c 1550 whole.vm >cut.vm
checked "cut within a block" cut.vm
head -c 512 whole.vm >cut.vm
checked "cut after the header" cut.vm
echo "objects:"
"$program" check whole.vm --json
"$program" check cut.vm --json 2>/dev/null
echo "a stream:"
"$program" check - <whole.vm 2>&1
"$program" check whole.vm 2>&1 >/dev/full
echo "status $?"
