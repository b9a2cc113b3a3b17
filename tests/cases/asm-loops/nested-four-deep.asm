; least budget 464
routine main public budget BUDGET
        SETK k0 2
a:
        SETK k1 3
b:
        SETK k2 2
c:
        SETK k3 4
d:
        LDI w0 1
        LOOP k3 d
        LOOP k2 c
        LOOP k1 b
        LOOP k0 a
        RET
