# The least budget of each routine is written in the place of its own; a callee's budget is paid by its callers. All other bytes stay, line
# ends too. So `check` accepts the text's image, and not that of the text with one step less.
export LC_ALL=C
here=$(readlink -f "$(dirname "$0")")
folder=$(mktemp -d)
trap 'rm -rf "$folder"' EXIT
cd "$folder" || exit 1
program=$1
"$program" budget "$here/draft.asm"
echo "again:"
"$program" budget "$here/draft.asm" once.asm
"$program" budget - twice.asm <once.asm
cmp once.asm twice.asm
"$program" call once.asm main 1 2
for budget in 3 9 15 54; do
    sed "s/budget *$budget\$/budget $((budget - 1))/; s/budget $budget /budget $((budget - 1)) /; s/budget $budget;/budget $((budget - 1));/" once.asm >less.asm
    "$program" asm less.asm less.image && "$program" check less.image 2>&1
done
echo "other line ends:"
printf '\r\n; one\r\nroutine one public budget ?\r\n  RET\r\nroutine last public budget 77 \r\n  RET' | "$program" budget - | od -An -c
