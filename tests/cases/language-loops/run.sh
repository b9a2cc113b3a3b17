# Loops of the structured language: where counting begins and ends, and when the statements after else run.
export LC_ALL=C
folder=$(mktemp -d)
trap 'rm -rf "$folder"' EXIT
cat >"$folder/loops.tkv" <<'END'
const K = 2;

pub fn one_to(n <= 9) {
    for i in 1..n { out(i)?; }
}

pub fn from_to(a <= 9, n <= 9) {
    for i in a..n {
        if i == 3 { continue; }
        if i == 7 { break; }
        out(i)?;
    } else {
        out(100)?;
    }
}

pub fn from_constant(n <= 9) {
    for i in K..n { out(i)?; } else { out(100)?; }
    out(n)?;
}

pub fn below(n) {
    while n < 9 max 4 { out(n)?; n = n + 1; } else { out(100)?; }
}
END
"$1" call "$folder/loops.tkv" <<'END'
call one_to 4
call one_to 1
call one_to 0
call from_to 2 5
call from_to 5 9
call from_to 5 4
call from_to 5 5
call from_constant 1
call from_constant 4
call below 9
call below 7
call below 0
END
