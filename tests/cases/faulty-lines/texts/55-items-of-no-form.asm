routine a public budget 9
        in w0<=9,w1<=9
        out x=9
        RET
