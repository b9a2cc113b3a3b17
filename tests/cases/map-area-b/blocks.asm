; A block of 2 bytes in a chunk, which is the map block.
routine put public budget 40
    LDI w1 5
    VNEW s0 w2 w1 put_end
    LDI w3 2
    LALLOC s0 w4 w3 put_unlock
    VSETMAP w2 put_unlock
put_unlock: VUNLOCK s0
put_end: RET

; A block with a chunk of so many bytes.
routine long public budget 40
    LDI w1 7
    VNEW s0 w2 w1 long_end
    LALLOC s0 w3 w0 long_unlock
long_unlock: VUNLOCK s0
long_end: RET

; A group with an item of so many bytes, which is the map item.
routine group public budget 40
    GNEW w1 group_end
    INEW w2 w1 w0 group_end
    ISETMAP w1 w2 group_end
group_end: RET

routine drop public budget 40
    VFREE w0 drop_end
drop_end: RET
