# A session that is killed at any moment leaves a file that can be opened, with a block for each `update` that was answered before.
export LC_ALL=C
folder=$(mktemp -d)
trap 'rm -rf "$folder"' EXIT
cd "$folder" || exit 1
"$1" new kept.vm --area 262144
number=0
while [ $number -lt 100 ]; do
    printf 'call put 1\nupdate\ncall get\n'
    number=$((number + 1))
done >lines
last=0
for wait in 0.005 0.01 0.015 0.02 0.025 0.03 0.035 0.04 0.045 0.05; do
    "$1" shell "$top/tests/cases/asm-file-block/kept.asm" --file kept.vm <lines >answers 2>/dev/null &
    sleep $wait
    kill -KILL $! 2>/dev/null
    wait $! 2>/dev/null
    "$1" dump kept.vm >dump || echo "it can't be opened"
    now=$(head -n 1 dump | cut -d ' ' -f 3)
    least=$((last + $(wc -l <answers)))
    [ "$now" -lt "$least" ] && echo "$least blocks were there, now $now"
    last=$now
    # each block that is there is listed, and the last one is mapped
    listed=$(sed -n '2,/^saved/p' dump | grep -c uid)
    [ "$listed" -eq "$now" ] || echo "$listed of $now blocks are there"
done
echo "it was killed ten times"
