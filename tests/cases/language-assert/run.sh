# Assertions of the structured language: a true one does nothing, a false one fails with 16, and one that bounds a word bounds an index.
export LC_ALL=C
folder=$(mktemp -d)
trap 'rm -rf "$folder"' EXIT
cat >"$folder/assert.tkv" <<'END'
pub fn main(a, b) {
    assert a < b;
    out(1)?;
    try {
        assert (a == 0 || b == 9);
        out(2)?;
    } else {
        out(100 + why)?;
    }
    assert !(b == 9);
    out(3)?;
} else {
    out(200 + why)?;
}

fn small(n) -> m? {
    assert n <= 2;
    return n + 10;
}

pub fn pick(n) {
    let m = small(n) else { out(why)?; return; };
    out(m)?;
}

pub fn read(n, b: vm) {
    assert n <= 7;
    let p = deref(b, 16, 8)?;
    out(p.b[n])?;
} else {
    out(why)?;
}
END
"$1" call "$folder/assert.tkv" <<'END'
call main 1 1
call main 0 5
call main 1 5
call main 1 9
call pick 2
call pick 3
END
cat >"$folder/result.tkv" <<'END'
fn small(n) -> m {
    assert n <= 2;
    return n;
}
pub fn main(n) { out(small(n))?; }
END
"$1" check "$folder/result.tkv" 2>&1
echo "status $?"
cat >"$folder/name.tkv" <<'END'
pub fn main(n) {
    let assert = n;
    out(assert)?;
}
END
"$1" check "$folder/name.tkv" 2>&1
echo "status $?"
