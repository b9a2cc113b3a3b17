routine main public budget 9
        in s0=mem
        MUNLOCK s0
        RET
