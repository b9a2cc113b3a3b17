routine main public budget 50
outer:  SETK k1 9
inner:  LOOP k1 inner
        LOOP k0 outer
        RET
