routine store budget 9
in w1<=8 s0=mem p2=s0:8
out s0=mem
        LDI w0 1
        STXB w0 p2 w1
        RET
