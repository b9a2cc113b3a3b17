routine main public budget 1000
        SETK k3 9
        SETK k0 0
        SETK k1 0
        SETK k2 0
outer:  LDI w0 0
first:  SETK k1 5
        LOOP k0 first
second: SETK k2 5
        LOOP k1 second
third:  SETK k0 5
        LOOP k2 third
        LOOP k3 outer
        RET
