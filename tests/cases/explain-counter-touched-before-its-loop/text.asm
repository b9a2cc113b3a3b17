routine c budget 3
        SETK k0 1
        RET
routine a public budget 90
        SETK k0 3
        CALL c
again:  LDI w0 1
        LOOP k0 again
        RET
