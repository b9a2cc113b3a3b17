; Plug-ins of a stranger. The verifier accepts each.
routine filter public budget 20
    in s0=vm@
    out s0=vm@
    VDIRTY s0
    LDI w1 16
    DEREF s0 p0 w1 2 done
    LDI w2 7
    STW w2 p0 0
done:
    RET
