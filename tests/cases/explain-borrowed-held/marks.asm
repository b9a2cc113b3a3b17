routine main public budget 9
        in s0=vm@
        out s0=vm@
        IDIRTY s0
        RET
