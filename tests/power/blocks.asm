; Routines that change blocks of a VM file. Each block has one chunk, whose handle is 16.

; Makes a block with a chunk of w0 zero bytes.
routine make public budget 7
        LDI w1 5
        VNEW s0 w2 w1 no_block
        LALLOC s0 w3 w0 no_chunk
no_chunk:
        VUNLOCK s0
no_block:
        RET

; Stores the word w1 at byte w0 of the chunk.
routine poke public budget 6
        in s0=vm@
        out s0=vm@
        VDIRTY s0
        LDI w2 16
        DEREF s0 p0 w2 2 no_room
        STCW w1 p0 w0 no_room
no_room:
        RET

; Has the chunk be w0 bytes long.
routine resize public budget 6
        in s0=vm@
        out s0=vm@
        VDIRTY s0
        LDI w2 16
        LREALLOC s0 w2 w0 too_long
too_long:
        RET

; Prints w0.
routine say public budget 2
        OUT w0 printed
printed:
        RET
