routine main public budget 1000
        SETK k1 9
outer:  SETK k0 9
inner:  LOOP k1 inner
        SETK k1 2
        LOOP k1 outer
        RET
