routine main public budget 4294967295
        SETK k0 65535
a:      SETK k1 65533
b:      LOOP k1 b
        LOOP k0 a
        RET
