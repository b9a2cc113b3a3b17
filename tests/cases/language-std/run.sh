# The library of the structured language: what its routines return, and where faults in it are reported.
export LC_ALL=C
folder=$(mktemp -d)
trap 'rm -rf "$folder"' EXIT
cat >"$folder/values.tkv" <<'FILE'
pub fn p_mul(a, b) { out(mul(a, b))?; }
pub fn p_div(a, b) { out(div(a, b)?)?; } else { out(why)?; }
pub fn p_rem(a, b) { out(rem(a, b)?)?; } else { out(why)?; }
pub fn p_and(a, b) { out(and(a, b))?; }
pub fn p_or(a, b) { out(or(a, b))?; }
pub fn p_xor(a, b) { out(xor(a, b))?; }
pub fn p_not(a, b) { out(not(a))?; if b == a { return; } }
use std; // the last line
FILE
python3 -B "$(dirname "$0")/values.py" "$1" "$folder/values.tkv"
"$1" list "$folder/values.tkv" | grep budget

# Constants, calls within calls, and a routine of the author's that calls the library.
cat >"$folder/calls.tkv" <<'FILE'
use std;
use std;
const TEN = 10;
fn last_digit(n) -> d { let d = rem(n, TEN) else { return 99; }; return d; }
pub fn main(n) {
    out(last_digit(n), div(n, TEN)?, div(1000, n)?)?;
    out(div(mul(n, n), mul(2, n) + 1)?, and(or(n, 8), not(3)), xor(TEN, n))?;
    let rem = mul(3, n);
    out(rem)?;
} else { out(why)?; }
FILE
"$1" call "$folder/calls.tkv" main 1234
"$1" call "$folder/calls.tkv" main 0
# Steps in the library are those of the line with the call.
"$1" trace "$folder/calls.tkv" main 0 | cut -d' ' -f1 | uniq

# Each source after a line `==== NAME` is accepted, or refused at a line and column that it has.
awk -v folder="$folder" '/^==== / { number++; print > (folder "/names"); next } { print > sprintf("%s/%02d.tkv", folder, number) }' <<'FILE'
==== without use
pub fn main(a, b) { out(mul(a, b))?; }
==== name of a routine
fn mul(a, b) -> m { return a; }
pub fn main(a, b) { out(mul(a, b))?; }
use std;
==== name of a constant
use std;
const not = 3;
pub fn main(a) { out(a)?; }
==== name of a word
pub fn main(a, b) { let and = and(a, b); out(and)?; }
use std;
==== other library
use math;
pub fn main(a) { out(a)?; }
==== no semicolon
use std
pub fn main(a) { out(a)?; }
==== in a routine
pub fn main(a) { use std; out(a)?; }
==== as a name
pub fn main(use) { out(use)?; }
==== not closed
use std;
pub fn main(a) { out(a)?;
==== not ended
use std;
pub fn main(a) { let x =
==== nearly
use std;
pub fn main(a) { out(mull(a, a))?; }
==== arguments
use std;
pub fn main(a) { out(mul(a))?; }
==== refusal unsaid
use std;
pub fn main(a) { out(div(a, a))?; }
==== divisor that is 0
use std;
pub fn main(a) {
    out(div(a, 0)?)?;
}
==== words
use std;
pub fn main(a, b, c, d) {
    let e = a + 1;
    out(mul(b, c), e, d)?;
    out(a, b, c, d, e)?;
}
==== counters
use std;
fn square(x) -> m {
    return mul(x, x);
}
pub fn main(a) {
    for i in 0..2 { for j in 0..2 { for k in 0..2 { for l in 0..2 { out(square(a))?; } } } }
}
==== nothing more
use std;
FILE
number=0
while IFS= read -r name; do
    number=$((number + 1))
    printf '%s: ' "$name"
    "$1" check "$folder/$(printf %02d $number).tkv" 2>&1 </dev/null
done <"$folder/names"
exit 0
