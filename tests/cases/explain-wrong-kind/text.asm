routine mark public budget 9
        VLOCK s0 w0 e
        IDIRTY s0
        VUNLOCK s0
e:      RET
