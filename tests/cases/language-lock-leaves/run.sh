# Leaves out of two locks of the structured language: each path releases both locks and then goes where its statement says.
export LC_ALL=C
folder=$(mktemp -d)
trap 'rm -rf "$folder"' EXIT
cat >"$folder/locks.tkv" <<'END'
pub fn main(n) {
    for i in 0..n {
        mnew(h) as b {
            mnew(g) as c {
                out(i)?;
                if i == 1 { continue; }
                if i == 3 { break; }
            } else {
                out(why)?;
            }
            out(50 + i)?;
        } else {
            out(why)?;
        }
        out(90 + i)?;
    } else {
        out(100)?;
    }
    out(200)?;
}
END
"$1" call "$folder/locks.tkv" <<'END'
call main 3
call main 5
END
