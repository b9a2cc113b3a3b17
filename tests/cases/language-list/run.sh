# `list --assembly` repeats each line of a source before its instructions, of which `asm` makes the same image.
export LC_ALL=C
folder=$(mktemp -d)
trap 'rm -rf "$folder"' EXIT
program=$(readlink -f "$1")
cd "$folder" || exit 1
cat >part.tkv <<'EOF'
fn triple(n) -> m {
    let m = n + n;
    return m + n;
}
EOF
# A line is cut after 96 bytes, before the character that it would cut.
letters='éééééééééééééééééééééééééééééééééééééééé'
cat >main.tkv <<EOF
use "part.tkv";
use std;
pub fn main(n) {
    let m = triple(n);
	out(m)?; // ends ; here
}
pub fn other(n) { out(n + n)?; } pub fn third() {}
pub fn fourth(n) { out(n)?; } // $letters
pub fn fifth(a) { out(not(a))?; }
EOF
"$program" list main.tkv --assembly >made.asm
sed 's/^\(    [A-Z]*\).*/\1/; s/ budget.*//; /^; effects/d' made.asm

"$program" asm main.tkv of-source && "$program" asm made.asm of-listing && cmp of-source of-listing && echo "the same image"
echo "without its comments it is the listing:"
grep -v '^; [0-9]' made.asm >plain
"$program" list main.tkv | cmp - plain
"$program" list of-source --assembly | cmp - plain
"$program" list plain --assembly | cmp - plain

echo "examples:"
for source in "$top"/examples/*.tkv; do
    "$program" asm "$source" of-source
    "$program" list - --language tkv --assembly <"$source" >made.asm
    "$program" asm made.asm - | cmp - of-source || echo "$source: another image"
    grep -c '^; [0-9]' made.asm >count || echo "$source: no comment"
done
exit 0
