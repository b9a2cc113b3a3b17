routine main public budget 90
        SETK k0 65535
a:      SETK k1 65535
b:      SETK k2 65535
c:      ADD w0 w0 w1
        LOOP k2 c
        LOOP k1 b
        LOOP k0 a
        RET
