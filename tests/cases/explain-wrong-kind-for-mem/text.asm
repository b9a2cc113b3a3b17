routine main public budget 9
        VLOCK s0 w0 e
        MUNLOCK s0
e:      RET
