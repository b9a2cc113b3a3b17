routine main public budget 9
        in s0=vm@
        out s0=vm@
        VUPDATE e
e:      RET
