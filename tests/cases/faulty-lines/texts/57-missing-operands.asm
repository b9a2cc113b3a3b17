routine a public budget 9
        MOV w0
        LOOP
        LDW w0
        CALL
        RET
