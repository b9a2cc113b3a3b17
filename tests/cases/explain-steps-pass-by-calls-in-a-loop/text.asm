routine long budget 65535
        RET
routine main public budget 90
        SETK k0 65535
        JMP b
a:      BEQ w0 w1 b
        CALL long
b:      LOOP k0 a
        RET
