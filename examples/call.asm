; A routine that calls another. It can call only earlier ones; `double` is private, so no script calls it.

routine double budget 2
        ADD w0 w0 w0
        RET

routine main public budget 9
        LDI w0 3
        CALL double
        CALL double
        OUT w0 x
x:
        RET
