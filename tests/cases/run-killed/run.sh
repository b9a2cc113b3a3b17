# A program that is killed at any moment leaves a file that can be opened, with a block for each `update` that was done before.
export LC_ALL=C
folder=$(mktemp -d)
trap 'rm -rf "$folder"' EXIT
cd "$folder" || exit 1
"$1" asm "$top/tests/cases/asm-file-block/kept.asm" kept.image
"$1" new kept.vm
number=0
while [ $number -lt 1000 ]; do
    printf 'call put 1\nupdate\n'
    number=$((number + 1))
done >script
last=0
for wait in 0.01 0.02 0.03 0.04 0.05 0.06 0.07 0.08 0.09 0.1; do
    "$1" run kept.image kept.vm script >/dev/null 2>&1 &
    sleep $wait
    kill -KILL $! 2>/dev/null
    wait $! 2>/dev/null
    "$1" dump kept.vm >dump || echo "it can't be opened"
    now=$(head -n 1 dump | cut -d ' ' -f 3)
    [ "$now" -lt "$last" ] && echo "$last blocks were there, now $now"
    last=$now
    # each block that is there is listed, and the last one is mapped
    listed=$(sed -n '2,/^saved/p' dump | grep -c uid)
    [ "$listed" -eq "$now" ] || echo "$listed of $now blocks are there"
done
echo "it was killed ten times"
