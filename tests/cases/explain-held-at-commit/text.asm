routine main public budget 40
        MNEW s0 w0 e
        VNEW s1 w1 w2 u
        ILOCK s2 p0 w3 w4 8 v
        VSAVE x
x:      IUNLOCK s2
v:      VUNLOCK s1
u:      MUNLOCK s0
e:      RET
