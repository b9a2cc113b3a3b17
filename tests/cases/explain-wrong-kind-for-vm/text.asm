routine main public budget 9
        MNEW s0 w0 e
        VUNLOCK s0
e:      RET
