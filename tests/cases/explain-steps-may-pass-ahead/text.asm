; two calls take too much together, and only a LOOP leads from the one to the other
routine half budget 2147483647
        RET
routine main public budget 4294967295
        in w0<=1
        CALL half
        SETKW k0 w0
        LOOP k0 more
        RET
more:   CALL half
        RET
