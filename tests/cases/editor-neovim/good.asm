routine add public budget 3 ; 😀 adds
        ADD w0 w0 w1
        OUT w0 x
x:      RET
