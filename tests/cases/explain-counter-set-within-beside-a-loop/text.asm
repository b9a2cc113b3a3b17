routine main public budget 1000
outer:  SETK k1 1
inner:  SETK k0 1
        LOOP k1 inner
        LOOP k0 a
        RET
a:      LOOP k0 outer
        RET
