routine main public budget 90
        MLOCK s0 w0 e
        MUNLOCK s0
        RET
        LDW w4 p0 0
e:      RET
