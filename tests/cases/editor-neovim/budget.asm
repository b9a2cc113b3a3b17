routine add public budget 1
        ADD w0 w0 w1
        OUT w0 x
x:      RET
