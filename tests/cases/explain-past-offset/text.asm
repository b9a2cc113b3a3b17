routine third budget 9
in s0=mem p1=s0:6
out s0=mem
        LDW w0 p1 6
        RET
