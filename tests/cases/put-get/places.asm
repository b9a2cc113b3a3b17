; Places for bytes.

; A block of the file with a chunk of two bytes, 65 and 66.
routine block public budget 8
    VNEW s0 w0 w0 block_end
    LDI w1 2
    LALLOC s0 w2 w1 block_unlock
    DEREF s0 p0 w2 2 block_unlock
    LDI w1 16961
    STW w1 p0 0
block_unlock: VUNLOCK s0
block_end: RET

; A group with an item of three bytes.
routine group public budget 4
    GNEW w0 group_end
    LDI w1 3
    INEW w2 w0 w1 group_end
group_end: RET
