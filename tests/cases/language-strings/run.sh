# Strings of the structured language: what they write into a field of bytes, with escapes, and what is wrong.
export LC_ALL=C
folder=$(mktemp -d)
trap 'rm -rf "$folder"' EXIT
cat >"$folder/strings.tkv" <<'END'
struct Person { age: word, name: byte[5], end: byte }
struct Club { head: byte, people: Person[3] }

pub fn main(n) {
    mnew(h)? as b {
        let c = lalloc(b, Club.size)?;
        let p = deref(b, c, Club)?;
        for i in 0..3 { p.people[i].name = "-//-"; }
        p.people[1].name = "Ada"; // the rest of the field stays
        for i in 0..Club.size { out(p.b[i])?; }
        p.people[2].name = "\n\t\\\'\"";
        out(p.people[2].name[0], p.people[2].name[1], p.people[2].name[2], p.people[2].name[3], p.people[2].name[4])?;
        assert n <= 2;
        p.people[n].name = "x'";
        out(p.people[0].w[2], p.people[1].w[2], p.people[2].w[2], '\"')?;
    }
} else {
    out(why)?;
}
END
printf 'call main 0\ncall main 2\ncall main 3\n' | "$1" call "$folder/strings.tkv" 2>&1
long=0123456789012345678901234567890123456789012345678901234567890123
while IFS= read -r line; do
    cat >"$folder/wrong.tkv" <<END
struct Person { age: word, name: byte[4], first: byte, list: word[4], more: byte[99] }
pub fn main(h, c, i) { mlock(h)? as b { let p = deref(b, c, Person)?; let q = deref(b, c, 9)?;
    $line
} }
END
    "$1" check "$folder/wrong.tkv" 2>&1
done <<END
p.name = "Adam";
p.name = "Adams";
p.more = "$long";
p.more = "${long}4";
p.name = "";
p.name = ""; p.name = "ab";
p.name = "Ada;
p.name = "\\q";
p.name = "Ä";
p.age = "Ad";
p.first = "A";
p.list = "A";
p.nam = "A";
p.name[0] = "A";
p.name? = "A";
p.name = "A" else { out(1)?; }
p.b = "A";
q.name = "A";
i = "A";
let x = "A";
out("A")?;
p.name = "A" + 1;
END
exit 0
