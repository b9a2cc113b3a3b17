# Wrong lines are reported and do nothing. What is no text, no VM file, or can't be read or written, ends the session, in one line.
export LC_ALL=C
folder=$(mktemp -d)
trap 'rm -rf "$folder"' EXIT
cd "$folder" || exit 1
program=$1
. "$top/tests/on_files.sh"
kept=$top/tests/cases/asm-file-block/kept.asm
"$program" new file.vm --area 1024
printf 'call put 7\nsave\n' | "$program" run kept.image file.vm -
cp file.vm was.vm

echo "wrong lines:"
printf 'put 8\ncall put $h\ncall put -> \nundo 2\ndump x\ndump 1 2 3\nexplain a b\nexplain none\ntrace\ntrace no 1\nhelp nothing\nquit now\nmap 3\nload\ncall put 8 => 1\n\377\n' |
    "$program" shell "$kept" --file file.vm 2>&1
echo "status $?"
cmp was.vm file.vm

# each FILE WORD..: a session with these words
each() {
    name=$1
    shift
    echo "$name:"
    printf 'update\n' | "$program" shell "$@" 2>&1 | sed "s#$folder#FOLDER#"
}
each missing --file none.vm
each "a folder" --file "$folder"
mkfifo pipe
each "a pipe" --file pipe
each "an image in place of the file" --file kept.image
: >empty.vm
each "empty" --file empty.vm
{ head -c 8 file.vm; printf '\001'; tail -c +10 file.vm; } >damaged.vm
each "damaged" --file damaged.vm
each "no text" none.asm
each "a file in place of the text" file.vm
printf 'routine a public budget 1\n ADD w0 w0 w0\n RET\n' >rejected.asm
each "a text that the verifier refuses" rejected.asm
"$program" shell - </dev/null 2>&1 | head -n 1
"$program" shell --region 1 </dev/null 2>&1 | head -n 1

echo "streams:"
"$program" shell "$kept" --file file.vm <&- 2>&1
echo "status $?"
"$program" shell "$kept" --file file.vm <"$folder" 2>&1
printf 'call put 8\nupdate\ncall get\n' | "$program" shell "$kept" --file file.vm 2>&1 >/dev/full
echo "call get" | "$program" shell "$kept" --file file.vm
cp was.vm file.vm
printf 'help\n' | "$program" shell 2>&1 >&-
head -c 1048577 /dev/zero | tr '\0' ' ' | "$program" shell 2>&1
{ yes 'call get' | head -n 3 && echo 'call put 3'; } >lines
"$program" shell "$kept" <lines 1<>lines 2>said
cat said

# Calls of the system fail: the file has the blocks of before or after the commit, after it if a later line was answered.
printf '7/7\n7 8/7\n' >states
echo "each call fails:"
number=0
while
    number=$((number + 1))
    cp was.vm file.vm
    rm -f calls
    printf 'call put 8\nupdate\ncall get\n' |
        failing any $number $((number + 1000)) fail "$program" shell "$kept" --file file.vm >answers 2>said
    status=$?
    state=$(which_state file.vm states)
    case $status:$state:$(tail -n 1 answers) in
    0:2:8 | 1:[12]: | 1:[12]:refused* | 1:2:8) ;;
    *) echo "call $number: status $status, state $state, $(cat answers said)" ;;
    esac
    [ "$(wc -l <said)" -le 1 ] || cat said
    [ $status -ne 0 ]
do :; done
cat answers
