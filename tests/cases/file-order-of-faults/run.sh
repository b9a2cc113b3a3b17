# The words are gone through from left to right: what is wrong with the file is said before what is wrong with the script or within the
# image, and what is wrong with a number first. A text is assembled where it is read, so what is wrong with it is said before that.
export LC_ALL=C
folder=$(mktemp -d)
trap 'rm -rf "$folder"' EXIT
cd "$folder" || exit 1
program=$1
"$program" asm "$top/tests/cases/asm-file-block/kept.asm" kept.image
"$program" new whole.vm --area 512
echo bad >bad
printf GRT1 >cut
for words in "- bad - --region 5" "- bad -" "bad bad bad --region 5" "missing bad missing" "cut bad missing" "cut whole.vm missing" "cut whole.vm bad" \
    "bad missing missing" "kept.image whole.vm bad" "kept.image whole.vm kept.image"; do
    "$program" run $words 2>&1 | head -n 1
done
"$program" new whole.vm --area 700 2>&1 | head -n 1
"$program" new whole.vm 2>&1
exit 0
