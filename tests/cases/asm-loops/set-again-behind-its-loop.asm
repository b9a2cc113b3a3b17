; least budget 159
routine main public budget BUDGET
        SETK k1 9
        SETK k0 3
outer:  LDI w0 0
inner:  LDI w1 1
        LOOP k0 inner
        SETK k0 5
        LOOP k1 outer
        RET
