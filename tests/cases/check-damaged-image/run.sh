# The image of examples/add.session, each time with one number changed. The standard input has a line for each: the offset of the
# number, how many bytes it has (little end first), and what it becomes. The number in the file has to be another one.
folder=$(mktemp -d)
trap 'rm -rf "$folder"' EXIT
sed '/^end/,$d' "$top/examples/add.session" | xxd -r -p >"$folder/add"

# A number as bytes: `bytes NUMBER COUNT`.
bytes() {
    number=$1
    for _ in $(seq "$2"); do
        printf "\\$(printf %03o $((number % 256)))"
        number=$((number / 256))
    done
}

while read -r at count number; do
    cp "$folder/add" "$folder/image"
    bytes "$number" "$count" | dd of="$folder/image" bs=1 seek="$at" conv=notrunc status=none
    cmp -s "$folder/add" "$folder/image" && echo "$at: nothing is changed"
    printf '%s: ' "$at"
    "$1" check "$folder/image" 2>&1
done
true
