routine peek budget 9
        in s0=mem p0=s0:0
        LDB w0 p0 0
        RET
