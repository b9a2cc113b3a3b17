routine main public budget 9
        in s0=vm@ p0=s0:4
        out s0=vm@ p0=s0:2
        RET
