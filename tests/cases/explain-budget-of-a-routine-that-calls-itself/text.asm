routine a public budget 4
        CALL a
        RET
