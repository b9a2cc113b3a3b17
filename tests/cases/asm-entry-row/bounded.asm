routine main public budget 40
in w0<=9
        OUT w0 x
x:
        RET
