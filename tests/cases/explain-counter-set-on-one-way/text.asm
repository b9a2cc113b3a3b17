routine main public budget 40
        BEQ w0 w1 again
        SETK k1 5
again:
        LOOP k1 again
        RET
