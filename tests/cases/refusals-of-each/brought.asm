; A block and a group that have to be brought into memory: there is no room, or the device fails.
routine make public budget 60
    LDI w1 5
    LDI w2 2
    VNEW s0 w0 w1 make_e
    VSETMAP w0 make_x
make_x: VUNLOCK s0
    GNEW w6 make_e
    INEW w3 w6 w2 make_e
    ISETMAP w6 w3 make_e
make_e: RET

routine fill public budget 20
    MNEW s0 w0 fill_e
    LDI w4 65498
    LALLOC s0 w7 w4 fill_x
fill_x: MUNLOCK s0
fill_e: RET

routine brought public budget 100
    LDI w2 2
    LDI w4 0
    VGETMAP w0
    IGETMAP w6 w3
    LDI w7 0
    VLOCK s0 w0 brought1 ; tried
    VUNLOCK s0
brought1: OUT w7 brought_x
    LDI w7 0
    INEW w7 w6 w2 brought2 ; tried
brought2: OUT w7 brought_x
    LDI w7 0
    IFREE w6 w3 brought3 ; tried
brought3: OUT w7 brought_x
    LDI w7 0
    IREALLOC w6 w3 w2 brought4 ; tried
brought4: OUT w7 brought_x
    LDI w7 0
    IINS w6 w3 w4 w2 brought5 ; tried
brought5: OUT w7 brought_x
    LDI w7 0
    IDEL w6 w3 w4 w2 brought6 ; tried
brought6: OUT w7 brought_x
    LDI w7 0
    ILOCK s0 p0 w6 w3 2 brought7 ; tried
    IUNLOCK s0
brought7: OUT w7 brought_x
brought_x: RET
