routine c budget 3
        SETK k0 1
        RET
routine a public budget 90
        SETK k0 3
a:      CALL c
        LOOP k0 a
        RET
