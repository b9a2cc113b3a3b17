; least budget 86
routine fill budget 12
        SETK k0 3
h:
        LDI w0 1
        LOOP k0 h
        RET

routine main public budget BUDGET
        SETK k1 5
n:
        CALL fill
        LOOP k1 n
        RET
