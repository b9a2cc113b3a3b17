# An image of 4,096 instructions, the most that there may be, in two routines:
#   sum:    LDI w1 1, 3,997 times ADD w0 w0 w1, OUT w0 x, x: RET      (4,000; w0 and 3,997)
#   seven:  LDI w0 7, 93 times MOV w2 w0, OUT w2 y, y: RET            (96)
# Each row is the open row, and the potential at a place is how many instructions are left.
awk '
    function word(n) { return sprintf("%02x%02x", n % 256, int(n / 256)) }
    function long(n) { return word(n % 65536) word(int(n / 65536)) }
    function instr(op, a, b, c, imm, target) { printf "%s%02x%02x%02x0000%s%s\n", op, a, b, c, word(imm), word(target) }
    function routine(name, count) { print name "0100" word(count) long(count) open open }
    function points(count) { for (i = count; i > 0; i--) print open long(i) none none none none }
    BEGIN {
        none = "00000000"
        open = "ffffffffffffffffffffffffffffffff" none "ff000000ff000000ff000000ff0000000000"
        print "47525431" word(1) word(2)
        routine("73756d00000000000000000000000000", 4000)
        routine("736576656e0000000000000000000000", 96)
        instr("01", 1, 0, 0, 1, 0)
        for (i = 0; i < 3997; i++) instr("03", 0, 0, 1, 0, 0)
        instr("11", 0, 0, 0, 0, 3999)
        instr("10", 0, 0, 0, 0, 0)
        instr("01", 0, 0, 0, 7, 0)
        for (i = 0; i < 93; i++) instr("02", 2, 0, 0, 0, 0)
        instr("11", 2, 0, 0, 0, 4095)
        instr("10", 0, 0, 0, 0, 0)
        points(4000)
        points(96)
        print "end"
        print "call sum 3"
        print "call seven"
        print "call sum 61540"
    }'
