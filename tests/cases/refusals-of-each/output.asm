; The output is full, which a later call says.
routine much public budget 5000
    LDI w1 5
    LDI w2 2
    VNEW s0 w0 w1 much_e
    LALLOC s0 w3 w2 much_x
    SETK k0 2000
much_more: OUT w2 much_full ; tried
    LOOP k0 much_more
much_full: DEREF s0 p0 w3 2 much_x
    STW w7 p0 0
    VSETMAP w0 much_x
much_x: VUNLOCK s0
much_e: RET

routine say public budget 20
    VGETMAP w0
    VLOCK s0 w0 say_e
    LDI w1 16
    DEREF s0 p0 w1 2 say_x
    LDW w2 p0 0
    OUT w2 say_x
say_x: VUNLOCK s0
say_e: RET
