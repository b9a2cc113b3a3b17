routine main budget 40
in s0=mem p0=s0:8
out s0=mem
        BEQ w0 w1 a
        LFREE s0 w2 a
a:
        LDI w3 1
        LDW w4 p0 0
        RET
