; Prints 1, 2, 4 and 8. LOOP jumps back as often as its counter says.

routine doubles public budget 15
        LDI w0 1
        SETK k0 3
again:
        OUT w0 x
        ADD w0 w0 w0
        LOOP k0 again
x:
        RET
