# Routines of a source that no public routine calls: their faults are found, but not what only some calls would refuse.
export LC_ALL=C
folder=$(mktemp -d)
trap 'rm -rf "$folder"' EXIT
cd "$folder" || exit 1
# A line is a routine.
while IFS= read -r line; do
    printf 'struct S { left: word, right: word }\n%s\npub fn main(n) { out(n)?; }\n' "$line" >one.tkv
    "$1" check one.tkv 2>&1
done <<'END'
fn f(n) -> m { return n + x; }
fn f(n) -> m { if n == 0 { return 1; } }
fn f(n, n) { out(n)?; }
fn f(b: mem, p: 4 in c) { out(p.w[0])?; }
fn f(b: mem, p: 4 in b) { out(p.w[4])?; }
fn f(p: S in b, b: mem) { out(p.middle)?; }
fn f(b: mem) { let p = deref(b, 16, 4)?; lfree(b, 16)?; out(p.w[0])?; }
fn f(b: vm) { vupdate()?; }
fn f(n) -> m { out(n)?; return n; }
fn f(n) { let m = n + 1; out(m * m)?; }
fn f(n) ? { fail n; }
fn f(n) { let p = deref(n, 16, 4)?; out(p.w[0])?; }
fn f(n) { f(n); }
fn f(n) { g(n); } fn g(n) { f(n); }
fn g(n) { fail 0; } inline fn f(n) { g(n); }
END
# A call may give constants, and eight times the same word.
while IFS= read -r line; do
    printf 'struct S { left: word, right: word }\n%s\npub fn main(n) { out(n)?; }\n' "$line" >one.tkv
    "$1" check one.tkv 2>&1
done <<'END'
fn f(n, k) -> m { return n * k + n / k; }
fn f(b: mem, size) { let p = deref(b, 16, size)?; out(p.w[1000])?; }
fn f(b: vm, p: S in b, q: S in b) { p.left = q.right; }
fn f(a, b, c, d, e, f, g, h) -> m { return a + (b + (c + (d + (e + (f + (g + h)))))); }
fn f(a, b) { for i in a..b step 2 { out(i)?; } }
fn f(n, k) -> m ? { if n == 0 { fail k; } return n; }
fn f(b: vm, p: S in b, i) { p.w[i] = 1; }
inline fn f(n) { n = n + 1; }
END
exit 0
