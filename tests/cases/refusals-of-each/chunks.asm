; Chunks and arrays. w1 is no chunk; w3 is a chunk of two bytes, w5 an array of elements of varying sizes, w6 of one size.
routine chunks public budget 400
    MNEW s0 w0 chunks_e
    LDI w0 0
    LDI w1 1000
    LDI w2 2
    LDI w4 65535
    LALLOC s0 w3 w2 chunks_x
    LDI w7 0
    LALLOC s0 w7 w4 chunks1 ; tried
chunks1: OUT w7 chunks_x
    LDI w7 0
    LFREE s0 w1 chunks2 ; tried
chunks2: OUT w7 chunks_x
    LDI w7 0
    LREALLOC s0 w1 w2 chunks3 ; tried
chunks3: OUT w7 chunks_x
    LDI w7 0
    LREALLOC s0 w3 w4 chunks4 ; tried
chunks4: OUT w7 chunks_x
    LDI w7 0
    LINS s0 w1 w2 w2 chunks5 ; tried
chunks5: OUT w7 chunks_x
    LDI w7 0
    LINS s0 w3 w4 w2 chunks6 ; tried
chunks6: OUT w7 chunks_x
    LDI w7 0
    LINS s0 w3 w2 w4 chunks7 ; tried
chunks7: OUT w7 chunks_x
    LDI w7 0
    LDEL s0 w1 w2 w2 chunks8 ; tried
chunks8: OUT w7 chunks_x
    LDI w7 0
    LDEL s0 w3 w2 w2 chunks9 ; tried
chunks9: OUT w7 chunks_x
    LDI w7 0
    LSIZE s0 w7 w1 chunks10 ; tried
chunks10: OUT w7 chunks_x
    LDI w7 0
    DEREF s0 p0 w1 1 chunks11 ; tried
chunks11: OUT w7 chunks_x
    LDI w7 0
    DEREF s0 p0 w3 3 chunks12 ; tried
chunks12: OUT w7 chunks_x
    LDI w6 1
    DEREF s0 p0 w3 2 chunks_x
    LDI w7 0
    LDCB w7 p0 w2 chunks13 ; tried
chunks13: OUT w7 chunks_x
    LDI w7 0
    LDCW w7 p0 w6 chunks14 ; tried
chunks14: OUT w7 chunks_x
    LDI w7 0
    STCB w7 p0 w2 chunks15 ; tried
chunks15: OUT w7 chunks_x
    LDI w7 0
    STCW w7 p0 w6 chunks16 ; tried
chunks16: OUT w7 chunks_x
    CANEW s0 w5 0 chunks_x
    CANEW s0 w6 2 chunks_x
    LDI w7 0
    CAADD s0 w1 w2 chunks17 ; tried
chunks17: OUT w7 chunks_x
    LDI w7 0
    CAADD s0 w3 w2 chunks18 ; tried
chunks18: OUT w7 chunks_x
    LDI w7 0
    CAADD s0 w5 w4 chunks19 ; tried
chunks19: OUT w7 chunks_x
    LDI w7 0
    CAINS s0 w1 w0 w2 chunks20 ; tried
chunks20: OUT w7 chunks_x
    LDI w7 0
    CAINS s0 w3 w0 w2 chunks21 ; tried
chunks21: OUT w7 chunks_x
    LDI w7 0
    CAINS s0 w5 w2 w2 chunks22 ; tried
chunks22: OUT w7 chunks_x
    LDI w7 0
    CAINS s0 w5 w0 w4 chunks23 ; tried
chunks23: OUT w7 chunks_x
    LDI w7 0
    CADEL s0 w1 w0 chunks24 ; tried
chunks24: OUT w7 chunks_x
    LDI w7 0
    CADEL s0 w3 w0 chunks25 ; tried
chunks25: OUT w7 chunks_x
    LDI w7 0
    CADEL s0 w5 w0 chunks26 ; tried
chunks26: OUT w7 chunks_x
    LDI w7 0
    CACOUNT s0 w7 w1 chunks27 ; tried
chunks27: OUT w7 chunks_x
    LDI w7 0
    CACOUNT s0 w7 w3 chunks28 ; tried
chunks28: OUT w7 chunks_x
    LDI w7 0
    CAELT s0 p0 w1 w0 1 chunks29 ; tried
chunks29: OUT w7 chunks_x
    LDI w7 0
    CAELT s0 p0 w3 w0 1 chunks30 ; tried
chunks30: OUT w7 chunks_x
    LDI w7 0
    CAELT s0 p0 w5 w0 1 chunks31 ; tried
chunks31: OUT w7 chunks_x
    CAADD s0 w5 w2 chunks_x
    LDI w7 0
    CAELT s0 p0 w5 w0 3 chunks32 ; tried
chunks32: OUT w7 chunks_x
    LDI w7 0
    CAZERO s0 w1 chunks33 ; tried
chunks33: OUT w7 chunks_x
    LDI w7 0
    CAZERO s0 w3 chunks34 ; tried
chunks34: OUT w7 chunks_x
    LDI w7 0
    CARESIZE s0 w1 w0 w2 chunks35 ; tried
chunks35: OUT w7 chunks_x
    LDI w7 0
    CARESIZE s0 w3 w0 w2 chunks36 ; tried
chunks36: OUT w7 chunks_x
    LDI w7 0
    CARESIZE s0 w6 w0 w2 chunks37 ; tried
chunks37: OUT w7 chunks_x
    LDI w7 0
    CARESIZE s0 w5 w2 w2 chunks38 ; tried
chunks38: OUT w7 chunks_x
    LDI w7 0
    CARESIZE s0 w5 w0 w4 chunks39 ; tried
chunks39: OUT w7 chunks_x
chunks_x: MUNLOCK s0
chunks_e: RET

routine full public budget 40
    MNEW s0 w0 full_e
    LDI w4 65498
    LALLOC s0 w3 w4 full_x
    LDI w7 0
    CANEW s0 w7 2 full1 ; tried
full1: OUT w7 full_x
full_x: MUNLOCK s0
full_e: RET
