; The host lends block 1 only to be read. This routine writes 7 over its word.
routine defaces public budget 9
        in s0=vm@
        out s0=vm@
        LDI w1 16
        VDIRTY s0
        DEREF s0 p0 w1 2 end
        LDI w2 7
        STW w2 p0 0
end:
        RET
