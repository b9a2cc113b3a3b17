# Structures within structures: paths with constant, bounded and tested indexes, and what is wrong in a path or a field.
export LC_ALL=C
folder=$(mktemp -d)
trap 'rm -rf "$folder"' EXIT
cat >"$folder/nested.tkv" <<'END'
struct Row { money: word, tag: byte[2] }
struct Table { count: word, rows: Row[8], last: Row }
struct Book { tables: Table[2], end: byte }
const K = 2;

// The bound of the parameter replaces a test.
pub fn bounded(n <= 7) {
    mnew(h)? as b {
        let c = lalloc(b, Table.size)?;
        let p = deref(b, c, Table)?;
        p.rows[n].money = 40 + n;
        out(p.rows[n].money, p.w[4 * n + Table.rows]?)?;
    }
}

fn sum(b: mem, t: Table in b) -> m {
    let s = t.last.money;
    for i in 0..8 {
        s = s + t.rows[i].money;
        for j in 0..2 { s = s + t.rows[i].tag[j]; }
    }
    return s;
}

fn fill(b: mem, q: Book in b) {
    for k in 0..2 {
        q.tables[k].last.money = 7 + k;
        for i in 0..8 {
            q.tables[k].rows[i].money = 100 * k + i;
            for j in 0..2 { q.tables[k].rows[i].tag[j] = 10 * i + j; }
        }
    }
    q.tables[1].last.tag[1] = 9;
    q.tables[0].rows[K].tag[1] = 77;
}

pub fn sums(n) {
    mnew(h)? as b {
        let c = lalloc(b, Table.size)?;
        let t = deref(b, c, Table)?;
        t.rows[n].money = 5 else { out(why, 89)?; }
        out(sum(b, t))?;
        for i in 0..Table.size { t.b[i] = 1; }
        out(sum(b, t))?;
    }
}

pub fn main(n, m) {
    out(Row.size, Table.size, Table.rows, Table.last, Book.size)?;
    mnew(h)? as b {
        let c = lalloc(b, Book.size)?;
        let q = deref(b, c, Book)?;
        fill(b, q);
        out(q.tables[1].last.money, q.tables[1].last.w[2], q.tables[K - 1].rows[K + 1].money)?;
        out(q.tables[0].rows[n].tag[m]?, q.tables[n].rows[1].money?, q.tables[0].rows[2 * n].tag[1]?)?;
        q.tables[n].rows[m + 1].money = n + m else { out(why, 88)?; }
        out(q.tables[n].rows[m + 1].money?)?;
    }
} else {
    out(why, 99)?;
}
END
printf 'call bounded 0\ncall bounded 7\ncall sums 3\ncall sums 90\ncall main 1 1\ncall main 1 0\ncall main 0 5\ncall main 9 0\n' | "$1" call "$folder/nested.tkv" 2>&1
head='struct Row { money: word, tag: byte[2] }
struct Table { count: word, rows: Row[8], last: Row }
pub fn main(h, c, i) { mlock(h)? as b { let p = deref(b, c, Table)?; let q = deref(b, c, 10)?;'
while IFS= read -r line; do
    printf '%s\n%s\n} }\n' "$head" "$line" >"$folder/wrong.tkv"
    "$1" check "$folder/wrong.tkv" 2>&1
done <<'END'
let x = p.last;
let x = p.rows[2];
out(p.rows[i])?;
p.last = 3;
p.count = p.last;
p.last;
out(p.rows.money)?;
out(p.last[0].money)?;
out(p.last.monney)?;
out(p.count.money)?;
out(p.rows[9].money)?;
out(p.rows[i].money)?;
out(p.rows[i]?.money)?;
out(q.rows[i].money?)?;
out(lsize(b, p.last)?)?;
out(1 + p.rows[1])?;
END
while IFS= read -r line; do
    printf '%s\n' "$line" >"$folder/wrong.tkv"
    "$1" check "$folder/wrong.tkv" 2>&1
done <<'END'
struct Row { money: word, next: Row } pub fn main() { }
struct Row { table: Table } struct Table { money: word } pub fn main() { }
const Row = 4; struct Table { rows: Row[8] } pub fn main() { }
struct Row { list: word[8_000] } struct Table { rows: Row[5] } pub fn main() { }
struct Row { list: word[8_000] } struct Table { rows: Row[65_535] } pub fn main() { }
struct Row { list: word[8_000] } struct Table { rows: Row[4], end: byte[1_535] } pub fn main() { out(Table.size)?; }
END
exit 0
