# Indexes of the structured language: what a for between constants counts needs no test, also in a routine that is called.
export LC_ALL=C
folder=$(mktemp -d)
trap 'rm -rf "$folder"' EXIT
cat >"$folder/index.tkv" <<'END'
struct Row { head: word, list: word[4] }

fn put(b: mem, r: Row in b, i) { r.list[i] = 3 * i; }

pub fn main() {
    mnew(h)? as b {
        let c = lalloc(b, 10)?;
        let r = deref(b, c, Row)?;
        for i in 0..4 { r.list[i] = 10 + i; }
        r.head = 5;
        for i in 0..4 { out(r.list[i])?; }
        for i in 0..10 step 2 { out(r.w[i])?; }
        for i in 1..4 step 2 { put(b, r, i); }
        for i in 0..10 { out(r.b[i])?; }
    }
    out(99)?;
}
END
echo "call main" | "$1" call "$folder/index.tkv"
