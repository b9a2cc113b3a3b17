routine below public budget 9
in w0<=2
out w0<=1 w1<=7
        LDI w1 7
        RET
