routine few budget 2
in w0<=3 w5<=9 s1=vm
out s1=vm
        RET
routine main public budget 9
        LDI w5 10
        LDI w0 3
        CALL few
        RET
