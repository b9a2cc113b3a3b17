routine a budget 50
        in p0=s0:4
l:      LDB w0 p0 0
        RET
        JMP l
