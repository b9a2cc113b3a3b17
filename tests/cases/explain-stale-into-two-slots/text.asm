routine main budget 40
in s0=mem s1=mem p0=s0:8 p1=s1:8
out s0=mem s1=mem
        BEQ w0 w1 a
        MOVP p0 p1
a:
        LDW w4 p0 0
        RET
