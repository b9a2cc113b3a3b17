# A source with a fault: its sentence, with line and column, and the status. Another one nests too deep.
export LC_ALL=C
folder=$(mktemp -d)
trap 'rm -rf "$folder"' EXIT
cat >"$folder/stale.tkv" <<'END'
pub fn main(h, c) {
    mlock(h)? as b {
        let p = deref(b, c, 8)?;
        lfree(b, c)?;
        out(p.w[0])?;
    }
}
END
for command in check list explain; do
    "$1" "$command" "$folder/stale.tkv" 2>&1
    echo "status $?"
done
"$1" asm "$folder/stale.tkv" "$folder/stale.image" 2>&1
echo "status $?"
[ -e "$folder/stale.image" ] || echo "no image"
for depth in 85 86; do
    {
        printf 'pub fn main(n) {'
        printf ' try {%.0s' $(seq $depth)
        printf ' out(n)?;'
        printf ' } else { out(1)?; }%.0s' $(seq $depth)
        printf ' }\n'
    } >"$folder/deep.tkv"
    "$1" check "$folder/deep.tkv" 2>&1
done
exit 0
