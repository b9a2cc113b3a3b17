# Images with as much as there may be:
#   4,096 instructions in two routines, each 2,047 times ADD w0 w0 w1, and RET;
#   32 routines, each of which calls the one below it, but the lowest; then ADD w0 w0 w1, RET;
#   33 such routines, one too many.
# Each row is the open row. The potential at a place is what is left to pay there: a step for each instruction, and for a CALL the
# budget of the routine below besides.
awk '
    function word(n) { return sprintf("%02x%02x", n % 256, int(n / 256)) }
    function long(n) { return word(n % 65536) word(int(n / 65536)) }
    function header(routines) { print "image"; print "47525431" word(1) word(routines) }
    function routine(name, count, budget) { print name "0100" word(count) long(budget) open open }
    function add() { print "03000001000000000000" }
    function ret() { print "10000000000000000000" }
    function call(callee) { print "0f0000000000" word(callee) "0000" }
    function point(potential) { print open long(potential) none none none none }
    function sums(count) { for (i = 1; i < count; i++) add(); ret() }
    function name(r) { return sprintf("72%02x%02x", 48 + int(r / 10), 48 + r % 10) "00000000000000000000000000" }
    function chain(routines) {
        header(routines)
        for (r = 0; r < routines; r++) routine(name(r), r == 0 ? 2 : 3, 2 + 3 * r)
        for (r = 0; r < routines; r++) { if (r > 0) call(r - 1); add(); ret() }
        for (r = 0; r < routines; r++) { if (r > 0) point(2 + 3 * r); point(2); point(1) }
        print "end"
    }
    BEGIN {
        print "on_routines"
        none = "00000000"
        open = "ffffffffffffffffffffffffffffffff" none "ff000000ff000000ff000000ff0000000000"
        header(2)
        routine("66697273740000000000000000000000", 2048, 2048)
        routine("7365636f6e6400000000000000000000", 2048, 2048)
        sums(2048)
        sums(2048)
        for (r = 0; r < 2; r++) for (left = 2048; left > 0; left--) point(left)
        print "end\nroutine 0\ncall 1 3\nroutine 1\ncall 1 3"
        chain(32)
        print "routine 31\ncall 0 3"
        chain(33)
    }'
