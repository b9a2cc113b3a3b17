# Each step of a run, or how often each instruction ran, and what is left of the budget; with the line of a text, or the pc of an image.
export LC_ALL=C
here=$(readlink -f "$(dirname "$0")")
folder=$(mktemp -d)
trap 'rm -rf "$folder"' EXIT
cd "$folder" || exit 1
program=$1
text=$here/squares.asm
trace() {
    "$program" trace "$@" 2>&1
    echo "status $?"
}
trace "$text" squares 1
trace "$text" squares 1 --count
"$program" asm "$text" squares.image
trace squares.image squares --steps 2
trace - squares --steps 0 <"$text"
trace "$text" squares 0 --count --steps 1 | head -n 1

echo "some steps:"
"$program" trace "$text" squares 1 >all
all=$(($(wc -l <all) - 1))
for steps in 1..2 2..3 2..2 3..100; do
    "$program" trace "$text" squares 1 --steps $steps >some
    first=${steps%%..*}
    last=${steps##*..}
    [ "$last" -gt "$all" ] && last=$all
    { sed -n "$first,${last}p" all && tail -n 1 all; } | cmp - some && echo "$steps: $(($(wc -l <some) - 1)) of $all"
done
"$program" trace "$text" squares 1 --steps 2..3 --json | grep -o '"step":[0-9]*'
trace "$text" squares 1 --steps 1000000..1000000

echo "faults:"
trace "$text" square 1
trace "$text" squares 10
trace "$text" squares 1 x
trace "$text" squares 1 --only square
trace "$text"  2>&1 | tail -n 1
trace "$text" squares 1 --steps 1000001 | head -n 1
trace "$text" squares 1 --steps x | head -n 1
for steps in 0..5 5..4 1..1000001 1.. ..2 1..2..3; do
    trace "$text" squares 1 --steps $steps | head -n 1
done
trace missing.asm squares
trace "$text" squares --file missing.vm
"$program" trace "$text" squares 1 2>&1 >/dev/full
echo "status $?"
"$program" trace "$text" squares 1 2>&1 >&-
echo "status $?"
