routine a public budget 9
        MUNLOCK s4
        MUNLOCK w0
        RET
