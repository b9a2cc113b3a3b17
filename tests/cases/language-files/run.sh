# Sources of several files: which files are read, and where faults and steps are reported.
export LC_ALL=C
folder=$(mktemp -d)
trap 'rm -rf "$folder"' EXIT
cd "$folder" || exit 1
mkdir library
cat >main.tkv <<'FILE'
// A shop.
use "library/prices.tkv"; // has the library too
use "library/types.tkv";
const MOST = 2 * LIMIT;
struct Shop { stock: word[LIMIT] }
pub fn main(n) { out(price(n), MOST, Shop.size)?; }
FILE
cat >library/prices.tkv <<'FILE'
use "types.tkv";
use "../main.tkv";
use std;
fn price(n) -> p {
    return mul(n, LIMIT);
}
FILE
printf 'use "types.tkv";\r\nuse "../library/types.tkv"  ;const LIMIT = 7; // no end of line' >library/types.tkv
"$1" call main.tkv main 6
"$1" trace main.tkv main 0 | sed 's/    .*//' | uniq
(cd library && "$1" call ../main.tkv main 6)
"$1" call "$folder/main.tkv" main 6
"$1" asm main.tkv main.image && "$1" call main.image main 6

fault() {
    "$1" check main.tkv 2>&1
    echo "status $?"
    "$1" --diagnostics check main.tkv 2>&1 | sed 1d
    "$1" check --json main.tkv 2>/dev/null | grep -v '"end"'
}
echo 'pub fn main(n) {
    out(price(n))?
}
use "library/prices.tkv";' >main.tkv
fault "$1"
echo 'use "library/prices.tkv";
pub fn main(n) { out(price(n))?; }
fn price(n) -> p { return n; }' >main.tkv
fault "$1"
echo 'use "library/prices.tkv";
pub fn main(n) { out(price(n))?; }' >main.tkv
echo 'fn price(n) -> p {
    return n + x;
}' >library/prices.tkv
fault "$1"
echo '
use "../nothing.tkv";' >library/prices.tkv
fault "$1"
echo '// nothing
use "nothing.tkv";' >main.tkv
fault "$1"
echo 'use "library";' >main.tkv
fault "$1"
for line in '    use "library/prices.tkv";' 'use "library/prices.tkv"' 'use "library/prices.tkv;' 'use library/prices.tkv;' 'const X = "x";'; do
    printf '%s\n' "$line" >main.tkv
    "$1" check main.tkv 2>&1 | cut -d: -f1
done

# A source has at most 16 files, and 1,048,576 bytes.
: >main.tkv
for k in 1 2 3 4 5 6 7 8 9 10 11 12 13 14 15; do
    echo "use \"$k.tkv\";" >>main.tkv
    echo "fn f$k() { }" >"$k.tkv"
done
echo 'pub fn main() { f1(); f15(); out(1)?; }' >>main.tkv
"$1" call main.tkv main
echo 'use "main.tkv";' >>15.tkv
"$1" call main.tkv main
echo 'use "library/prices.tkv";' >>15.tkv
"$1" call main.tkv main 2>&1
echo 'use "big.tkv";
pub fn main() { out(1)?; }' >main.tkv
head -c 1048000 /dev/zero | tr '\0' '\n' >big.tkv
"$1" call main.tkv main
head -c 1048576 /dev/zero | tr '\0' '\n' >big.tkv
"$1" call main.tkv main 2>&1
exit 0
