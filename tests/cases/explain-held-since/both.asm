routine main budget 40
in s0=vm
        CHK w0 1 a
        JMP b
a:      VUNLOCK s0
        VLOCK s0 w0 e
b:      VUPDATE u
u:      VUNLOCK s0
e:      RET
