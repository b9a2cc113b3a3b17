# Tests in a source: `test` runs each on a new VM file, and reports each call that prints something else than the test says.
export LC_ALL=C
folder=$(mktemp -d)
trap 'rm -rf "$folder"' EXIT
program=$(readlink -f "$1")
cd "$folder" || exit 1

cat >add.tkv <<'END'
const LIMIT = 9;
pub fn add(a, b) { out(a + b)?; }
pub fn count(n <= LIMIT) {
    for i in 0..n { out(i)?; }
}
pub fn make() {
    vnew(h, 7)? as b { out(h)?; }
}
pub fn uid(plus, b: vm, more) { out(plus + more)?; }
fn test(x) -> y { return x; }
pub fn same(x) { out(test(x))?; }

test "adds" {
    add(2, 3) => 5;
    add(2, 3) => 6; add(65535, LIMIT) => 8;
    count(3) => 0, 1, 2;
    count(0) =>;
    add(0, 0) =>;
    add(1, 1); uid(1, 9, 2);
}
test "a \"new\" file" {
    uid(1, 1, 2) => refused 1;
    make() => 1;
    uid(1, 1, 2) => 3;
    uid(1, 1, 2) => refused LIMIT;
}
test "no call" {}
test "another file" { uid(0x10, 1, 'a') => refused 1; same(4) => 5; }
END
"$program" test add.tkv
echo "status $?"
"$program" check add.tkv
printf 'call add 1 2 => 3\ncall add 1 2 => 4\n' >script
"$program" test add.tkv script | tail -n 2
"$program" test add.tkv --junit out.xml >/dev/null
grep -e '<testsuite ' -e failure out.xml
"$program" test add.tkv --coverage | sed -n '/: *pub fn add/p; $p'

# The image has no test.
sed '/^test /,$d' add.tkv >bare.tkv
"$program" asm add.tkv with.image && "$program" asm bare.tkv without.image && cmp with.image without.image && echo "the same image"
"$program" test bare.tkv 2>&1
echo "status $?"
printf 'routine f public budget 1\n  RET\n' >f.asm
"$program" test f.asm 2>&1
sed -i 's/=> 6/=> 5/; s/add(0, 0) =>/add(0, 0) => 0/; s/LIMIT;$/1;/; s/refused 1;$/refused 1;/; s/=> 5; }/=> 4; }/' add.tkv
sed -i 's/uid(1, 1, 2) => refused 1;/uid(1, 2, 2) => refused 1;/' add.tkv
"$program" test add.tkv
echo "status $?"

# Tests of files that a source uses do not run with it.
printf 'use "add.tkv";\npub fn twice(n) { out(n + n)?; }\n\ntest "doubles" {\n    twice(4) => 9;\n    add(1, 1) => 2;\n}\n' >two.tkv
"$program" test two.tkv

echo "faults:"
# faulty TEXT: what is wrong with a source that begins with `add` and has this text on line 2
faulty() {
    printf 'pub fn add(a <= 5, b) { out(a + b)?; } fn inner(x) -> y { return x; }\n%s\n' "$1" >faulty.tkv
    "$program" check faulty.tkv 2>&1
}
faulty 'test "x" { sub(1, 2) => 3; }'
faulty 'test "x" { inner(1) => 1; }'
faulty 'test "x" { add(1) => 3; }'
faulty 'test "x" { add(1, 2, 3) => 3; }'
faulty 'test "x" { add(6, 2) => 8; }'
faulty 'test "x" { add(n, 2) => 8; }'
faulty 'test "x" { add(1, 2) => add(1, 2); }'
faulty 'test "x" { add(1, 2) = 3; }'
faulty 'test "x" { add(1, 2) => 65536; }'
faulty 'test x { add(1, 2) => 3; }'
faulty 'test "" { add(1, 2) => 3; }'
faulty 'test "x" { add(1, 2) => 3; '
faulty 'test "x" add(1, 2) => 3;'
faulty 'test "x" { out(1)?; }'
faulty 'pub fn f(n) { if n => 3 { out(n)?; } }'
# The last source is faulty.
exit 0
