routine main public budget 9
        SETKW k0 w0
again:  LOOP k0 again
        RET
