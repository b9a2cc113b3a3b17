routine main budget 40
in s0=vm
        CHK w0 1 x
        RET
x:      VUNLOCK s0
        VLOCK s0 w0 e
        VUNLOCK s0
e:      RET
