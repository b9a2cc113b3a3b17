routine a public budget 9
        LDW w0 p4 0
        LDW w0 s0,p0 0
        RET
