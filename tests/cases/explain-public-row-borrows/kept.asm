routine main public budget 9
        in s0=vm@
        out s0=vm s1=vm@
        RET
