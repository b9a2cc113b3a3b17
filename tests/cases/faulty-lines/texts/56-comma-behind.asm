routine a public budget 9
        LDI w0 5 , 6
        RET
