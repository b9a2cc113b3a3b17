# `trace` prints only chosen steps: at lines or labels of a routine, after which conditions are true, that change a chunk, or from a step on.
export LC_ALL=C
folder=$(mktemp -d)
trap 'rm -rf "$folder"' EXIT
program=$(readlink -f "$1")
cd "$folder" || exit 1
text=$top/tests/cases/trace/squares.asm
chunks=$top/tests/cases/trace-chunks/chunks.asm
trace() {
    "$program" trace "$@" 2>&1
    echo "status $?"
}
echo "at lines:"
trace "$text" squares 3 --break squares:7
trace "$text" squares 3 --break squares:x --break squares:4
"$program" asm "$text" squares.image
trace squares.image squares 0 --break squares:4 --break squares:L3
echo "after which conditions are true:"
trace "$text" squares 3 --break squares:a --when 'w2>4'
trace "$text" squares 3 --break squares:7 --when 'w2>=4' --when 'w2 < 0x10'
trace "$text" squares 3 --when k0=0 --break squares:10
trace "$text" squares 3 --when 'w1!=1' --steps 1..8
trace "$text" squares 3 --when 'w2<=0' --when 'w1=0'
"$program" trace "$text" squares 3 --break squares:7 --when w2=9 --json | grep -o '"step":[0-9]*'
echo "from a step on:"
trace "$text" squares 3 --from 23
trace "$text" squares 3 --from 25
"$program" trace "$text" squares 3 --from 20 --break squares:8 --json | grep -o '"step":[0-9]*'
echo "that change a chunk:"
trace "$chunks" keep 150 --watch mem:1:16
trace "$chunks" keep 150 --watch mem:1:18
trace "$chunks" keep 150 --watch mem:1:16 --break keep:11
trace "$chunks" keep 150 --watch 1:16
"$program" new file.vm
printf 'call put 1\nupdate\n' | "$program" call "$top/tests/cases/asm-file-block/kept.asm" --file file.vm
"$program" trace "$top/tests/cases/asm-file-block/kept.asm" put 2 --file file.vm --watch 2:16 | grep -c 'STW'
"$program" trace "$top/tests/cases/asm-file-block/kept.asm" get --file file.vm --watch 1:16

echo "faults:"
trace "$text" squares 3 --break squares:99
trace "$text" squares 3 --break squares:b
trace "$text" squares 3 --break roots:7
for words in '--break squares' '--break :7' '--break squares:' '--when w8=1' '--when k4=1' '--when w3' '--when w3>65536' '--when w3=-1' '--when 3>w3' \
    '--watch 16' '--watch 1:65536' '--watch mem:1' '--from 0' '--from 1000001' '--from 1 --steps 5' '--watch 1:16 --only squares' \
    '--count --break squares:7' '--when w1=1 --html page.html'; do
    # shellcheck disable=SC2086
    "$program" trace "$text" squares 3 $words 2>&1 | head -n 1
done
trace "$text" squares 3 --when w9=1 | tail -n 1
[ ! -e page.html ] || echo "there is a page"
