# Arrays of the structured language: each index is within the array of its field, or a test refuses it at the array's end.
export LC_ALL=C
folder=$(mktemp -d)
trap 'rm -rf "$folder"' EXIT
cat >"$folder/arrays.tkv" <<'END'
struct Row { money: word, tag: byte[2] }
struct Table { list: word[2], next: word, rows: Row[3], end: byte }

// After each array is what no access to it may reach.
fn fill(b: mem, p: Table in b) {
    for i in 0..2 { p.list[i] = 10 + i; }
    p.next = 77;
    for i in 0..3 {
        p.rows[i].money = 20 + i;
        for j in 0..2 { p.rows[i].tag[j] = 30 + i + 10 * j; }
    }
    p.end = 78;
}

pub fn read(n, m) {
    mnew(h)? as b {
        let c = lalloc(b, Table.size)?;
        let p = deref(b, c, Table)?;
        fill(b, p);
        out(p.list[n]?)?;
        out(p.rows[n].tag[m]?)?;
    }
} else {
    out(why, 99)?;
}

pub fn write(n, m) {
    mnew(h)? as b {
        let c = lalloc(b, Table.size)?;
        let p = deref(b, c, Table)?;
        fill(b, p);
        p.list[n] = 1 else { out(why, 1)?; }
        p.rows[n].money = 2 else { out(why, 2)?; }
        p.rows[m].tag = "!!" else { out(why, 3)?; }
        try { p.rows[m].tag[n]? = 4; } else { out(why, 4)?; }
        out(p.list[0], p.list[1], p.next, p.end)?;
        for i in 0..3 { out(p.rows[i].money, p.rows[i].w[2])?; }
    }
}

// The number of a refusal before stays known after a test that holds.
pub fn keep(n) {
    mnew(h)? as b {
        let c = lalloc(b, Table.size)?;
        let p = deref(b, c, Table)?;
        mfree(99) else {
            p.list[n]? = why;
            out(p.list[n]?, why)?;
        }
    }
}

fn at(b: mem, p: Table in b, i) -> r { return p.list[i]; }

// Bounds without a test: of parameters, conditions, operations and loops.
pub fn bounded(n, k <= 2) {
    mnew(h)? as b {
        let c = lalloc(b, Table.size)?;
        let p = deref(b, c, Table)?;
        fill(b, p);
        out(p.list[n & 1], p.list[n % 2], p.list[n / 32_768], at(b, p, 1))?;
        for i in 0..k { out(p.list[i])?; }
        for i in 0..1 { out(p.list[i + 1])?; }
        let i = 0;
        while i < 2 max 9 {
            out(p.list[i])?;
            i = i + 1;
        }
        for j in 0..n {
            let x = p.list[j] else break;
            out(x)?;
        }
        assert n <= 2;
        for j in 0..2 { out(p.rows[n].tag[j])?; }
    }
} else {
    out(why)?;
}
END
cat >"$folder/script" <<'END'
call read 0 0
call read 1 1
call read 2 0
call read 1 2
call read 65535 0
call write 1 2
call write 2 3
call keep 1
call keep 2
call bounded 2 2
call bounded 3 0
END
"$1" call "$folder/arrays.tkv" <"$folder/script" 2>&1
while IFS= read -r line; do
    cat >"$folder/one.tkv" <<END
const K = 2;
struct Row { money: word, tag: byte[2] }
struct Table { list: word[K], next: word, rows: Row[3], none: word[0] }
fn at(b: mem, p: Table in b, i) -> r { return p.list[i]; }
pub fn main(h, c, n, k <= 3) { mlock(h)? as b { let p = deref(b, c, Table)?;
$line
} }
END
    "$1" check "$folder/one.tkv" 2>&1
done <<'END'
out(p.list[2])?;
out(p.list[2]?)?;
let x = p.list[65_535] else { fail; }
p.list[K] = 1;
p.list[1 + 1]? = 1;
out(p.rows[3].money)?;
out(p.rows[3].tag[0]?)?;
out(p.rows[n].tag[2]?)?;
p.rows[4 - 1].tag = "ab";
out(p.none[0]?)?;
out(p.none[n]?)?;
out(at(b, p, 2))?;
for i in 0..3 { out(p.list[i])?; }
for i in 0..3 { out(p.list[i]?)?; }
for i in 0..4 step 3 { p.rows[i].money = 1; }
out(p.list[n])?;
out(p.rows[n & 3].money)?;
if n <= 2 { p.list[n] = 1; }
p.rows[k].tag = "ab";
for i in 0..k { out(p.list[i])?; }
while n < 2 max 9 { n = n + 1; out(p.list[n])?; }
if n < 2 { loop max 2 { out(p.list[n])?; n = n + 1; } }
if n < 2 || n > 9 { out(p.list[n])?; }
if n < 2 { n = n + 1; out(p.list[n])?; }
if n < 2 { loop max 2 { out(p.list[n])?; } }
if !(n >= 2) && k == 0 { out(p.list[n], p.list[k])?; }
for i in 0..9 { if i < 2 { out(p.list[i])?; } }
for i in 0..k { p.rows[i].tag = "ab"; }
p.rows[n].tag? = "ab";
p.rows[1].tag? = "ab";
END
exit 0
