routine main public budget 9
again:  ADD w0 w0 w0
        LOOP k2 again
        RET
