# `run` takes a text as it takes an image.
export LC_ALL=C
folder=$(mktemp -d)
trap 'rm -rf "$folder"' EXIT
cd "$folder" || exit 1
program=$1
"$program" new counter.vm
for turn in 1 2; do
    "$program" run "$top/examples/counter.asm" counter.vm "$top/examples/counter.script"
    "$program" run - counter.vm "$top/examples/counter.script" <"$top/examples/counter.asm"
done
"$program" run "$top/examples/rejected.asm" missing.vm missing 2>&1
echo "status $?"
echo 'routine a' | "$program" run - missing.vm missing 2>&1
echo "status $?"
