; The host lends block 1 only to be changed. This routine outputs the word in it.
routine spies public budget 9
        in s0=vm@
        out s0=vm@
        LDI w1 16
        DEREF s0 p0 w1 2 end
        LDW w2 p0 0
        OUT w2 end
end:
        RET
