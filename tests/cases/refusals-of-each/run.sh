# Each refusal of each instruction is answered to a routine: the instructions that are tried, as their texts say, each with what w7 then
# is; and behind them the refusals of docs/INSTRUCTIONS.md that are not among these.
export LC_ALL=C
case=$(dirname "$(readlink -f "$0")")
folder=$(mktemp -d)
trap 'rm -rf "$folder"' EXIT
cd "$folder" || exit 1
program=$1
for library in failing refusing; do
    cc -O -shared -fPIC -o $library.so "$top/tests/$library.c" -ldl || exit 1
done
for text in "$case"/*.asm; do
    "$program" asm "$text" "$(basename "$text" .asm).image" || exit 1
done
: >pairs

# on TEXT ROUTINE COMMAND..: makes a file, and runs commands on it with the routines of the text
on() {
    text=$1
    routine=$2
    shift 2
    printf '%s\n' "$@" >script
    "$program" run "$text.image" "${file:-new.vm}" script --region "${region:-1048576}" >output 2>&1
}

# answers: the instructions that are tried in the routine, each with a line of the output
answers() {
    sed -n "/^routine $routine /,/^\$/s/^\([a-z_0-9]*:\)* *\([A-Z]*\) .*; tried\$/\2/p" "$case/$text.asm" | paste -d ' ' - output | tee -a pairs
}

new() {
    rm -f new.vm
    "$program" new new.vm "$@"
}

for routine in chunks full; do
    new && on chunks $routine "call $routine" && answers
done
for routine in memory file items; do
    new && on blocks $routine "call $routine" && answers
done

echo "no room:"
for routine in chunks items blocks; do
    new && region=65536 on room $routine "call $routine" && answers
done
new && region=65536 on brought brought "call make" update "call fill" "call brought" && answers

echo "no handle:"
for routine in memory file; do
    new && on handles $routine "call $routine" && answers
done

echo "the output is full:"
new && on output much "call much" "call say"
echo "lines: $(wc -l <output)"
tail -n 1 output >last && mv last output && answers

echo "the area is full:"
new --area 512
on commits commits "call put" "call put" "call put" "call put" "call put" "call put" "call put" "call put" "call commits" && answers
# Four blocks are saved, and none is current: what four take stands behind what none takes.
new --area 512
on commits commits "call put" "call put" "call put" "call put" update
{ head -c 1536 new.vm; dd if=new.vm bs=1 skip=1824 count=8; dd if=new.vm bs=1 skip=1536 count=288; tail -c +1833 new.vm; } >saved.vm 2>/dev/null
"$program" dump saved.vm
file=saved.vm on commits commits revert
sed 's/refused/VREVERT/' output | tee -a pairs

# failing CALL FIRST LAST TEXT ROUTINE COMMAND..: runs commands on the file, of which these calls of the system fail
failing() {
    failing="$1 $2 $3 fail"
    shift 3
    FAILING="$failing" LD_PRELOAD=./failing.so on "$@"
}

echo "the device fails:"
new && on brought make "call make" update
number=0
while
    number=$((number + 1))
    failing read $number 1000 brought brought "call brought"
    [ $number -lt 100 ] && [ "$(cat output)" = disk ]
do :; done
answers
new && failing write 1 1000 commits commits "call commits" && answers
echo "it is not sure what it holds:"
new && failing write 2 2 commits commits "call commits" && answers

# refusing N: runs the commits on a new file, of which this allocation is refused; counts them
refusing() {
    new && REFUSED=$1 COUNTS=counts LD_PRELOAD=./refusing.so on commits commits "call commits"
    read -r asked _ <counts
}

# The last allocations are those of the commits.
echo "memory is refused:"
refusing 0
number=$asked
while [ "$number" -gt 0 ] && ! grep -qx "VUPDATE 13" pairs; do
    refusing "$number"
    answers | grep ' 13$'
    number=$((number - 1))
done

echo "not tried:"
sed -n 's/^| \[[0-9a-f]*\][^|]* | \[\([A-Z]*\)\][^|]*|.*| \([0-9, ]*\) |$/\1 \2/p' "$top/docs/INSTRUCTIONS.md" | tr -d , |
    while read -r instruction numbers; do
        for number in $numbers; do
            grep -qx "$instruction $number" pairs || echo "$instruction $number"
        done
    done
