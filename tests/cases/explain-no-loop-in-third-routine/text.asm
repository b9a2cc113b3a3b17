routine few budget 1
        RET

routine less budget 1
        RET

routine main public budget 9
        LDI w0 1
a:      OUT w0 x
        JMP a
x:      RET
