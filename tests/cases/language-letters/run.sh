# Characters of the structured language, with escapes, and numbers with underscores. A backslash between quotes is a character too.
export LC_ALL=C
folder=$(mktemp -d)
trap 'rm -rf "$folder"' EXIT
cat >"$folder/letters.tkv" <<'END'
pub fn main() {
    out('\n', '\t', '\\', '\'', '\', 'a', ' ', 65_535, 0x00_ff, 0b1_0)?;
}
END
"$1" call "$folder/letters.tkv" main
for wrong in "'\q'" "'ab'" "'a" "1_x" "'\n" "'''"; do
    printf 'pub fn main() {\n    out(%s)?;\n}\n' "$wrong" >"$folder/wrong.tkv"
    "$1" check "$folder/wrong.tkv" 2>&1
done
exit 0
