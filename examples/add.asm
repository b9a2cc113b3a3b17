; Prints the sum of two numbers.

routine add public budget 5
        LDI w0 2
        LDI w1 3
        ADD w0 w0 w1
        OUT w0 x
x:
        RET
