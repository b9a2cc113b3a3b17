routine add public budget 3
        LDI w0 ?
        RET
