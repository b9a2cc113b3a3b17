routine main public budget 1000
        SETK k1 9
        SETK k0 0
        SETK k2 0
outer:  LDI w0 0
left:   SETK k0 5
        LOOP k2 left
right:  SETK k2 5
        LOOP k0 right
        LOOP k1 outer
        RET
