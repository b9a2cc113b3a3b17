# Eighty loops, each of which sets the counter of the one before, to which a way leads back.
work=$(mktemp -d)
trap 'rm -rf "$work"' EXIT
awk 'BEGIN {
    print "; least budget 7057"
    print "routine main public budget BUDGET"
    for (k = 0; k < 4; k++) print "SETK k" k " 1"
    print "h0: LDI w0 0"
    print "LOOP k0 h0"
    for (i = 1; i < 80; i++) {
        before = "k" (i + 2) % 3
        print "h" i ": SETK " before " 1"
        print "LOOP k" i % 3 " h" i
        print "BEQ w0 w1 s" i
        print "LOOP k3 h" i - 1
        print "s" i ": SETK " before " 0"
    }
    print "RET"
}' >"$work/chain.asm"
sh "$(dirname "$0")/../../least_budgets.sh" "$1" "$work"
