; least budget 29
routine main public budget BUDGET
        SETK k0 3
a:
        LDI w0 1
        LOOP k0 a
        SETK k0 5
b:
        LDI w0 1
        LDI w0 2
        LOOP k0 b
        RET
