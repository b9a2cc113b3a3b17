# Reads and writes of the standard streams, of images and of texts fail at each turn: the answer is one line that says what can't be read or
# written, behind a beginning of the standard output, and no file has changed. A call that is interrupted is made again, or is such a fault;
# where each call moves one byte, the answer is the whole one; and so it is where calls on a VM file are interrupted or move one byte. A line
# for each way: how many calls of a run can fail so, and the faults.
export LC_ALL=C
folder=$(mktemp -d)
trap 'rm -rf "$folder"' EXIT
program=$(readlink -f "$1")
cd "$folder" || exit 1
. "$top/tests/on_files.sh"
mkdir kept

# is_whole: the answer is that of a run of which nothing fails
is_whole() {
    [ $status -eq 0 ] && [ ! -s fault ] && cmp -s answer whole && diff -rq made whole.made >/dev/null
}

# is_fault: a fault of one line, behind a beginning of the answer, with the files as they were
is_fault() {
    [ $status -eq 1 ] && { read -r fault && ! read -r _; } <fault && diff -rq made kept >/dev/null &&
        { [ ! -s answer ] || head -c "$(wc -c <answer)" whole | cmp -s - answer; }
}

# tried CALL FIRST LAST HOW: runs the command of which these calls are so, on copies of the files
tried() {
    diff -rq made kept >/dev/null 2>&1 || { rm -rf made && cp -r kept made; }
    failing "$@" "$program" $words <"$input" >answer 2>fault
    status=$?
}

# wrong CALL NUMBER HOW: says that this answer is none of those
wrong() {
    echo "$*: status $status, $(cat fault)"
}

# turns CALL COUNT HOW: each call, and so many later ones, until the answer is the whole one
turns() {
    faults=
    count=0
    while
        tried "$1" $((count + 1)) $((count + 1 + $2)) "$3"
        ! is_whole && [ $count -lt 100 ]
    do
        count=$((count + 1))
        is_fault || wrong "$1" $count "$3"
        case $faults in
            *"$fault") ;;
            *) faults="$faults, $fault" ;;
        esac
    done
    echo "$1 $3: $count$faults"
}

# each INPUT WORD..: all ways, with this standard input
each() {
    input=$1
    shift
    words=$*
    echo "${words:-a session}:"
    tried none 1 1 fail
    cp answer whole
    rm -rf whole.made
    cp -r made whole.made
    for call in stream-read stream-write; do
        turns $call 0 fail
        for number in $(seq $count); do
            tried $call $number $number again
            is_whole || is_fault || wrong $call $number again
        done
        turns $call 1000 part-fail
        tried $call 1 100000 byte
        is_whole || wrong $call 1 byte
    done
    for number in 1 2 3 4 5 6 7 8; do
        tried any $number $number again
        is_whole || wrong any $number again
    done
    tried any 1 100000 byte
    is_whole || wrong any 1 byte
}

cp "$top/examples/records.asm" text.asm
"$program" asm "$top/examples/accounts.asm" kept/image
"$program" new kept/file.vm --area 1024
"$program" run kept/image kept/file.vm "$top/examples/accounts.script" >/dev/null
cp kept/image image
printf 'call list\n; the same\ncall list\n' >script
{ cat "$top/tests/cases/loop-of-1024-outputs/stdin"; yes "; a line that says nothing" | head -n 300; echo "call outputs 8"; } >session
each session
each kept/image check -
each script check made/image
each kept/image list -
each script list made/image
each kept/image explain -
each script explain text.asm
each script asm text.asm made/image
each text.asm asm - -
each script run made/image made/file.vm -
each image run - made/file.vm script
each script dump made/file.vm --chunks
each script map made/file.vm
each script help
