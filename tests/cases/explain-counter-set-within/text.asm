routine main public budget 90
        SETK k0 3
a:      LDI w0 1
        SETK k0 2
        LOOP k0 a
        RET
