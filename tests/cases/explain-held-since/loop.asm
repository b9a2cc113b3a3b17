routine main budget 40
in s0=vm
        SETK k0 3
a:      VUPDATE u
u:      VUNLOCK s0
        VLOCK s0 w0 e
        LOOP k0 a
        VUNLOCK s0
e:      RET
