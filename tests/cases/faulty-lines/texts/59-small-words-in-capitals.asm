routine a public budget 9 in w0<=9
        IN w0<=9
        Out w0<=9
x:      OUT w0 x
        RET
