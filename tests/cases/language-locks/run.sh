# Ways out of two locks: a return, a break and a failure release both, and none of them comes to another one's end.
export LC_ALL=C
folder=$(mktemp -d)
trap 'rm -rf "$folder"' EXIT
cat >"$folder/locks.tkv" <<'END'
pub fn returns(n) {
    mnew(outer)? as a {
        mnew(inner)? as b {
            if n == 0 { return; } else {}
            out(1)?;
        }
    }
    out(2)?;
} else {
    out(100)?;
}

pub fn breaks(n) {
    loop max 3 {
        mnew(outer)? as a {
            mnew(inner)? as b {
                if n == 0 { break; } else {}
                if n == 1 { fail 9; } else {}
                out(1)?;
            }
        }
    }
    out(2)?;
} else {
    out(why)?;
}
END
for call in "returns 0" "returns 1" "breaks 0" "breaks 1" "breaks 2"; do
    echo "$call:" $("$1" call "$folder/locks.tkv" $call 2>&1)
done
