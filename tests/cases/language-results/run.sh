# Several results of routines of the structured language: words change places, paths return different ones, and refusals leave names as they
# were.
export LC_ALL=C
folder=$(mktemp -d)
trap 'rm -rf "$folder"' EXIT
cat >"$folder/results.tkv" <<'END'
use std;
struct Span { first: word, last: word }

fn halves(n) -> low, high { return n & 255, n >> 8; }
fn swapped(a, b) -> x, y { return b, a; }
fn ordered(a, b) -> low, high {
    if b < a { return b, a; }
    return a, b;
}
fn turned(a, b, c) -> x, y, z { return b, c, a; }
fn grown(a, b) -> x, y {
    a = a + 1;
    b = b + a;
    return b, a;
}
fn crossed(a, b, c, d) -> x, y, z, u {
    a = a + 1;
    b = b + 1;
    c = c + 1;
    d = d + 1;
    return b, a, d, c;
}
fn spun(a, b, c) -> x, y, z {
    a = a + 1;
    b = b + 1;
    c = c + 1;
    return b, c, a;
}
fn shifted(a, b, c) -> x, y, z {
    a = a + 1;
    b = b + 1;
    c = c + 1;
    return 0, a, b;
}
fn thrice(a) -> x, y, z {
    a = a + a;
    return a, a, a + 1;
}
fn next(a, b) -> x, y { return b, a + b; }
fn divided(a, b) -> q, r ? {
    let q = div(a, b)?;
    return q, rem(a, b)?;
}
fn counted(n) -> a, b, c, d, e, f, g { return n, n + 1, n + 2, n + 3, n + 4, n + 5, n + 6; }
fn tried(h) -> locked, number {
    mlock(h) as b { return 1, 0; } else { return 0, why; }
}
fn ends(b: mem, p: Span in b) -> first, last { return p.first, p.last; }

pub fn halve(n) {
    let low, high = halves(n);
    out(low, high)?;
}
pub fn swap(a, b) {
    let x, y = swapped(a, b);
    out(x, y)?;
    x, y = swapped(x, y);
    out(x, y)?;
    a, b = swapped(a, b);
    out(a, b)?;
}
pub fn order(a, b) {
    let x, y = ordered(a, b);
    out(x, y)?;
    y, x = ordered(a, b);
    out(x, y)?;
}
pub fn turn(a, b, c) {
    for i in 0..2 { a, b, c = turned(a, b, c); }
    out(a, b, c)?;
}
pub fn grow(a, b) {
    let x, y = grown(a, b);
    out(x, y, a, b)?;
}
pub fn cross(n) {
    let a, b, c, d = crossed(n, n + 1, 3, n + 3);
    out(a, b, c, d)?;
}
pub fn spin(n) {
    let a, b, c = spun(n, n + 1, n + 2);
    out(a, b, c)?;
    a, b, c = shifted(a, b, c);
    out(a, b, c)?;
}
pub fn triple(n) {
    let a, b, c = thrice(n);
    out(a, b, c)?;
}
pub fn fibonacci(n <= 20) {
    let a = 0;
    let b = 1;
    for i in 0..n { a, b = next(a, b); }
    out(a, b)?;
}
pub fn divide(a, b) {
    let q, r = divided(a, b)?;
    out(q, r)?;
} else {
    out(why)?;
}
pub fn keep(a, b) {
    let q, r = halves(513);
    q, r = divided(a, b) else { q = 100; };
    out(q, r)?;
    let s, t = divided(b, a) else return;
    out(s, t)?;
}
pub fn count() {
    let a, b, c, d, e, f, g = counted(1);
    out(a, b, c, d, e, f, g)?;
}
pub fn try_both() {
    mnew(h)? as b { dirty b; }
    let x, y = tried(h);
    out(x, y)?;
    x, y = tried(h + 1);
    out(x, y)?;
    mfree(h)?;
}
pub fn after_refusal(n) {
    mlock(n) as b { dirty b; } else {
        let a, b, c, d = crossed(n, 2, 3, 4);
        out(a, b, c, d, why)?;
    }
}
pub fn span() {
    mnew(h)? as b {
        let p = deref(b, lalloc(b, Span.size)?, Span)?;
        p.first = 7;
        p.last = 9;
        let x, y = ends(b, p);
        out(x, y)?;
    }
    mfree(h)?;
}
pub fn map() {
    let g = gnew()?;
    isetmap(g, inew(g, 2)?)?;
    let group, item = igetmap();
    out(group, item)?;
    item, group = igetmap();
    out(group, item)?;
}
END
"$1" call "$folder/results.tkv" <<'END'
call halve 4660
call swap 1 2
call order 5 3
call order 3 5
call turn 1 2 3
call grow 1 2
call cross 1
call spin 1
call triple 4
call fibonacci 7
call divide 17 5
call divide 17 0
call keep 17 5
call keep 17 0
call keep 0 3
call count
call try_both
call after_refusal 9
call span
call map
END
