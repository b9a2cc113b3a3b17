; a LOOP that leads ahead, in a loop that sets its counter
routine few public budget 99
        SETK k1 3
each:   SETK k0 3
        LOOP k0 over
over:   MOV w0 w0
        LOOP k0 each
        RET
