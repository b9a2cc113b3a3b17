# Functions for cases on VM files of which calls of the system fail (tests/failing.c). `. "$top/tests/on_files.sh"` in a folder of its own, with
# the program in $program. The files are those that the routines of tests/cases/asm-file-block/kept.asm make: their blocks are 1, 2, ..,
# each with a word, and the last one is the map block.
cc -O -shared -fPIC -o failing.so "$top/tests/failing.c" -ldl && "$program" asm "$top/tests/cases/asm-file-block/kept.asm" kept.image || exit 1

# failing CALL FIRST LAST HOW COMMAND..: runs the command, of which these calls fail so, and appends its calls to the file `calls`
failing() (
    FAILING="$1 $2 $3 $4"
    shift 4
    CALLS=calls LD_PRELOAD=./failing.so
    export FAILING CALLS LD_PRELOAD
    exec "$@"
)

# blocks WORD..: the lines of a dump for a directory, behind its first word
blocks() {
    echo "map $# item 0 0"
    handle=0
    for word; do
        handle=$((handle + 1))
        echo "$handle uid 5 size 64 chunks 16:2"
        echo "chunk 16"
        printf '00000000: %02x00                                     ..\n' "$word"
    done
}

# state CURRENT SAVED: the dump of a file with these words in its current blocks and in its saved ones; words below 32
state() {
    echo "current $(blocks $1)"
    echo "saved $(blocks $2)"
}

# which_state FILE STATES: the number of the line of STATES, which has `CURRENT/SAVED` a line, that this file is as; else what is wrong
which_state() {
    "$program" dump --chunks "$1" >dump 2>&1 || {
        cat dump
        return
    }
    number=0
    while IFS=/ read -r current saved; do
        number=$((number + 1))
        if state "$current" "$saved" | cmp -s - dump; then
            echo $number
            return
        fi
    done <"$2"
    echo "none of the states"
    cat dump
}
