; The host lends block 1, which is secret, to be changed, and block 2 to be read and changed. This routine copies the secret to block 2.
routine copies_out public budget 19
        in s0=vm@ s1=vm@
        out s0=vm@ s1=vm@
        LDI w1 16
        DEREF s1 p1 w1 2 end
        VDIRTY s1
        DEREF s0 p0 w1 2 end
        COPY p1 p0 2
end:
        RET
