routine doubles public budget 9
        in s1=vm@
        out s1=vm@
        VDIRTY s1
        LDI w1 16
        DEREF s1 p0 w1 2 end
        LDW w2 p0 0
        ADD w2 w2 w2
        STW w2 p0 0
end:    RET
routine most public budget 99
        in s1=vm@
        out s1=vm@
        CALL doubles
        LDI w3 1
        MLOCK s0 w3 next
        MUNLOCK s0
next:   VSETMAP w3 last
        VUID w4 w3 last
        OUT w4 last
last:   VFREE w3 quits
quits:  RET
routine keeps public budget 9
        VUPDATE kept
kept:   RET
