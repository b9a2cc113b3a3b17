# Loops of the structured language: `break` and `continue` in the statements after else belong to the loop around this one.
export LC_ALL=C
folder=$(mktemp -d)
trap 'rm -rf "$folder"' EXIT
cat >"$folder/loops.tkv" <<'END'
pub fn for_break() {
    for i in 0..3 {
        for j in 0..2 {
            out(10 * i + j)?;
        } else {
            if i == 1 { break; }
        }
        out(90 + i)?;
    } else {
        out(100)?;
    }
    out(200)?;
}

pub fn for_continue() {
    for i in 0..3 {
        for j in 0..2 {
            out(10 * i + j)?;
        } else {
            if i == 1 { continue; }
        }
        out(90 + i)?;
    } else {
        out(100)?;
    }
    out(200)?;
}

pub fn while_break(n) {
    while n < 9 max 3 {
        let k = 0;
        while k < 9 max 2 {
            k = k + 1;
            out(10 * n + k)?;
        } else {
            n = n + 1;
            if n == 2 { break; }
        }
        out(90 + n)?;
    } else {
        out(100)?;
    }
    out(200)?;
}

pub fn while_continue(n) {
    while n < 9 max 3 {
        let k = 0;
        while k < 9 max 2 {
            k = k + 1;
            out(10 * n + k)?;
        } else {
            n = n + 1;
            if n == 2 { continue; }
        }
        out(90 + n)?;
    } else {
        out(100)?;
    }
    out(200)?;
}

pub fn loop_break(n) {
    loop max 3 {
        loop max 2 {
            out(n)?;
        } else {
            n = n + 1;
            if n == 2 { break; }
        }
        out(90 + n)?;
    } else {
        out(100)?;
    }
    out(200)?;
}

pub fn loop_continue(n) {
    loop max 3 {
        loop max 2 {
            out(n)?;
        } else {
            n = n + 1;
            if n == 2 { continue; }
        }
        out(90 + n)?;
    } else {
        out(100)?;
    }
    out(200)?;
}

// The inner loop ends by its own break, so its else does not run.
pub fn own_break() {
    for i in 0..2 {
        for j in 0..3 {
            if j == 1 { break; }
            out(10 * i + j)?;
        } else {
            break;
        }
        out(90 + i)?;
    }
}

// The second inner loop is within the else of the first one: both leaves belong to the outermost loop.
pub fn within_else(n <= 3) {
    for i in 0..3 {
        for j in 0..1 {
            out(i)?;
        } else {
            for k in 0..1 {
                out(50 + i)?;
            } else {
                if i == n { break; }
                continue;
            }
        }
    }
    out(200)?;
}

// A block is locked around the inner loop only: the leave releases it.
pub fn within_lock() {
    for i in 0..3 {
        mnew(h)? as b {
            for j in 0..1 {
                out(i)?;
            } else {
                if i == 0 { continue; }
                if i == 2 { break; }
            }
        }
        out(99)?;
    }
    out(200)?;
}
END
"$1" call "$folder/loops.tkv" <<'END'
call for_break
call for_continue
call while_break 0
call while_continue 0
call loop_break 0
call loop_continue 0
call own_break
call within_else 1
call within_else 3
call within_lock
END
