# Two scripts on one file: the first puts a block, saves, puts another and updates; the second gets the word of the map block, reverts, and
# gets it again. Each call on the file fails, alone and with all later ones: what is printed, its status where it is not 0, and the pair
# that `dump` then finds, current and saved. Up to the write of the selector a failing commit leaves the pair from before and can be
# made again; from there to its end the pair may be either one, and no commit is made any more. Where a block can't be read, the
# routine is told, and may ask again.
export LC_ALL=C
folder=$(mktemp -d)
trap 'rm -rf "$folder"' EXIT
case=$(readlink -f "$(dirname "$0")")
cd "$folder" || exit 1
program=$1
. "$top/tests/on_files.sh"
cat "$top/tests/cases/asm-file-block/kept.asm" "$case/more.asm" >more.asm
"$program" asm more.asm more.image || exit 1

# The pairs that may be found, as dumps.
pairs="new 1_1 1,2_1 1,2_ 1_ 9_"
state "" "" >new
for pair in 1_1 1,2_1 1,2_ 1_ 9_; do
    state "$(echo "${pair%_*}" | tr , ' ')" "${pair#*_}" >$pair
done

# found: the pair of file.vm
found() {
    "$program" dump --chunks file.vm >dump 2>&1
    for pair in $pairs; do
        cmp -s $pair dump && echo $pair && return
    done
    cat dump
}

# fails CALL FIRST LAST: a run of $script on a copy of $file, of which these calls fail
fails() {
    cp $file file.vm
    failing "$1" "$2" "$3" fail "$program" run more.image file.vm $script --region 65536 >output 2>&1 || echo "status $?" >>output
    echo $(cat output) - $(found)
}

# shown LINE: the line, with the calls that it is for
shown() {
    last=$((number - 1))
    [ $last -eq $since ] && echo "$last: $1" || echo "$since to $last: $1"
}

# each CALL COUNT: each call of that name, and so many later ones, up to the first that nobody makes; those that end alike on one line
each() {
    whole=$(fails none 1 1)
    number=1
    since=1
    line=$(fails "$1" 1 $((1 + $2)))
    while [ $number -lt 100 ] && [ "$line" != "$whole" ]; do
        number=$((number + 1))
        before=$line
        line=$(fails "$1" $number $((number + $2)))
        [ "$line" = "$before" ] && continue
        shown "$before"
        since=$number
    done
    echo "$number: $line"
}

"$program" new new.vm --area 1024
file=new.vm
script=first
printf 'call put 1\nsave\ncall put 2\nupdate\n' >first
echo "put 1, save, put 2, update:"
each any 0
echo "with all later ones:"
each any 1000

file=both.vm
script=second
cp new.vm both.vm
"$program" run more.image both.vm first
printf 'call get\nrevert\ncall get\n' >second
echo "get, revert, get:"
each any 0
echo "with all later ones:"
each any 1000

# A region that is full lets the clean block of the file go: it is read again, or the routine gets the number of the refusal.
file=new.vm
script=goes
printf 'call put 9\nupdate\ncall fill\ncall tight\ncall locked\ncall locked\ncall get\n' >goes
echo "a read of a block that went out of memory:"
each read 0
