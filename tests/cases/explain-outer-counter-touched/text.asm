routine c budget 3
        SETK k0 1
        RET
routine a public budget 500
        SETK k0 3
        CALL c
outer:  SETK k1 9
inner:  LOOP k1 inner
        LOOP k0 outer
        RET
