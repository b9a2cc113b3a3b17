routine few budget 9
        out p0=s0:4
        RET
routine main budget 99
        CALL few
        OUT w0 e
        RET
e:      LDB w0 p0 0
        RET
