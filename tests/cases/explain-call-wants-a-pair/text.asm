routine two budget 1
        in s0=mem s1=mem s2=vm s0#s1 s1#s2
        out s0=mem s1=mem s2=vm
        RET
routine both budget 20
        MLOCK s0 w0 e
        MLOCK s1 w1 u
        VLOCK s2 w2 v
        CALL two
        VUNLOCK s2
v:      MUNLOCK s1
u:      MUNLOCK s0
e:      RET
