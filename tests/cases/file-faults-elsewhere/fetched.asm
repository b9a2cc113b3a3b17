; Makes a block with the word 5, and a group with an item with the word 6.
routine make public budget 60
    LDI w1 9
    VNEW s0 w2 w1 make_e
    LDI w3 2
    LALLOC s0 w4 w3 make_u
    DEREF s0 p0 w4 2 make_u
    LDI w5 5
    STW w5 p0 0
    VSETMAP w2 make_u
make_u: VUNLOCK s0
    GNEW w0 make_e
    LDI w3 2
    INEW w1 w0 w3 make_e
    ISETMAP w0 w1 make_e
    ILOCK s0 p0 w0 w1 2 make_e
    IDIRTY s0
    LDI w5 6
    STW w5 p0 0
    IUNLOCK s0
make_e: RET

; Puts out the block's word, or why it is refused.
routine block public budget 60
    VGETMAP w0
    VLOCK s0 w0 block_r
    LDI w1 16
    DEREF s0 p0 w1 2 block_u
    LDW w2 p0 0
    OUT w2 block_u
block_u: VUNLOCK s0
    RET
block_r: OUT w7 block_e
block_e: RET

; Puts out the item's word, or why it is refused.
routine item public budget 60
    IGETMAP w0 w1
    ILOCK s0 p0 w0 w1 2 item_r
    LDW w2 p0 0
    OUT w2 item_u
item_u: IUNLOCK s0
    RET
item_r: OUT w7 item_e
item_e: RET
