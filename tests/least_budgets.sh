# Assembles each text NAME.asm of a folder with the budget that its line `; least budget N` gives, and with one less, and
# checks both. Words: the program, the folder.
export LC_ALL=C
program=$1
folder=$2
work=$(mktemp -d)
trap 'rm -rf "$work"' EXIT
for text in "$folder"/*.asm; do
    least=$(sed -n 's/^; least budget //p' "$text")
    for budget in "$least" $((least - 1)); do
        sed "s/budget BUDGET/budget $budget/" "$text" >"$work/text"
        printf '%s, budget %s: ' "$(basename "$text" .asm)" "$budget"
        "$program" asm "$work/text" "$work/image" 2>&1 && "$program" check "$work/image" 2>&1
    done
done
exit 0
