routine main public budget 40
        VLOCK s0 w0 e
        JMP b
        VUNLOCK s0
        VLOCK s0 w1 e
b:      VUPDATE u
u:      VUNLOCK s0
e:      RET
