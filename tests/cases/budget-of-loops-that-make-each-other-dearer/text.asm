routine main public budget ?
outer:  SETK k1 1
inner:  SETK k0 1
        LOOP k1 inner
        LOOP k0 a
        RET
a:      LOOP k0 b
        RET
b:      LOOP k0 outer
        RET
