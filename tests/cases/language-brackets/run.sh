# Conditions of the structured language with brackets: around a test, alternatives, a whole condition and a value, and after `!`.
export LC_ALL=C
folder=$(mktemp -d)
trap 'rm -rf "$folder"' EXIT
cat >"$folder/brackets.tkv" <<'END'
pub fn main(a, b) {
    if (a < b && (b == 3 || !(a == 1 && b == 2))) { out(1)?; }
    if !((a < 2 || b < 2) && (a + b) * 2 > 4) { out(2)?; }
    if (a == 1 || b == 1) && (a == 2 || b == 2) { out(3)?; }
    if !(!(a == b)) || ((a)) > b { out(4)?; }
    while (a < 3) max 2 { a = a + 1; }
    out(10 + a)?;
}
END
"$1" call "$folder/brackets.tkv" <<'END'
call main 0 0
call main 1 2
call main 2 1
call main 0 3
call main 2 3
call main 3 3
call main 1 1
END
