routine main public budget 9
        in s0=vm@
        out s0=vm@
        VLOCK s0 w0 e
        RET
e:      RET
