routine main public budget 9
        in s0=vm s1=mem s2=vm@
        out s0=vm s1=mem s2=vm@
        RET
