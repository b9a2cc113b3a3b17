; A region of 65,536 bytes is full, and what is asked for has no room.
routine chunks public budget 9000
    MNEW s0 w0 chunks_e
    LDI w0 0
    LDI w2 2
    LDI w4 6000
    LALLOC s0 w3 w2 chunks_x
    CANEW s0 w5 0 chunks_x
    CAADD s0 w5 w2 chunks_x
    MNEW s1 w6 chunks_x
    LDI w6 60000
    LALLOC s1 w7 w6 chunks_y
    LDI w7 0
    LALLOC s0 w7 w4 chunks1 ; tried
chunks1: OUT w7 chunks_y
    LDI w7 0
    LREALLOC s0 w3 w4 chunks2 ; tried
chunks2: OUT w7 chunks_y
    LDI w7 0
    LINS s0 w3 w2 w4 chunks3 ; tried
chunks3: OUT w7 chunks_y
    LDI w7 0
    CAADD s0 w5 w4 chunks4 ; tried
chunks4: OUT w7 chunks_y
    LDI w7 0
    CAINS s0 w5 w0 w4 chunks5 ; tried
chunks5: OUT w7 chunks_y
    LDI w7 0
    CARESIZE s0 w5 w0 w4 chunks6 ; tried
chunks6: OUT w7 chunks_y
    SETK k0 3000
chunks_more: LALLOC s0 w7 w2 chunks_full
    LOOP k0 chunks_more
chunks_full: LDI w7 0
    CANEW s0 w7 2 chunks7 ; tried
chunks7: OUT w7 chunks_y
chunks_y: MUNLOCK s1
chunks_x: MUNLOCK s0
chunks_e: RET

routine items public budget 60
    LDI w2 2
    LDI w4 6000
    GNEW w6 items_e
    INEW w3 w6 w2 items_e
    MNEW s0 w0 items_e
    LDI w0 60000
    LALLOC s0 w7 w0 items_x
    LDI w7 0
    INEW w7 w6 w4 items1 ; tried
items1: OUT w7 items_x
    LDI w7 0
    IREALLOC w6 w3 w4 items2 ; tried
items2: OUT w7 items_x
    LDI w7 0
    IINS w6 w3 w2 w4 items3 ; tried
items3: OUT w7 items_x
items_x: MUNLOCK s0
items_e: RET

routine blocks public budget 60
    LDI w2 5
    MNEW s0 w0 blocks_e
    LDI w4 65498
    LALLOC s0 w7 w4 blocks_x
    LDI w7 0
    MNEW s1 w7 blocks1 ; tried
    MUNLOCK s1
blocks1: OUT w7 blocks_x
    LDI w7 0
    VNEW s1 w7 w2 blocks2 ; tried
    VUNLOCK s1
blocks2: OUT w7 blocks_x
    LDI w7 0
    GNEW w7 blocks3 ; tried
blocks3: OUT w7 blocks_x
blocks_x: MUNLOCK s0
blocks_e: RET
