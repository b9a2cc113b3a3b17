routine few budget 2
        in w5<=9 s1=vm!
        out s1=vm!
        RET
routine main public budget 20
        LDI w5 10
        VLOCK s1 w0 e
        CALL few
        VUNLOCK s1
e:      RET
