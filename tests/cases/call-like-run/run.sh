# A script prints the same by `call` as by `run`, on a file alike, and leaves the same file.
export LC_ALL=C
folder=$(mktemp -d)
trap 'rm -rf "$folder"' EXIT
cd "$folder" || exit 1
program=$1
for name in counter accounts notes; do
    "$program" asm "$top/examples/$name.asm" image
    "$program" new ran.vm --area 4096
    cp ran.vm called.vm
    for turn in 1 2; do
        "$program" run image ran.vm "$top/examples/$name.script" >ran
        "$program" call "$top/examples/$name.asm" --file called.vm <"$top/examples/$name.script" | cmp - ran && cmp ran.vm called.vm && echo "$name, turn $turn"
    done
    rm ran.vm called.vm
done
