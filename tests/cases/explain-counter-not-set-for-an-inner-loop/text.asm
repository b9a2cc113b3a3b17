routine main public budget 90
outer:  LDI w0 1
inner:  LOOP k0 inner
        SETK k0 5
        LOOP k0 outer
        RET
