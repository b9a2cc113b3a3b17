routine far budget 9
        in s0=mem p0=s0:8
        out s0=mem
        LDW w1 p0 65535
        LDB w1 p0 65535
        RET
