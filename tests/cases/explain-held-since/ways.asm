routine main public budget 40
        CHK w0 1 a
        VLOCK s0 w0 e
        JMP b
a:      VLOCK s0 w1 e
        CHK w0 2 b
        VUNLOCK s0
        JMP e
b:      VUPDATE u
u:      VUNLOCK s0
        VLOCK s0 w2 e
        VUNLOCK s0
e:      RET
