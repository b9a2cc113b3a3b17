; What is to be kept is longer than the file's area of 65,536 bytes: nothing is written then. The map block has a word, beside a long block.
routine begin public budget 40
    LDI w1 5
    VNEW s0 w2 w1 begin_end
    LDI w3 2
    LALLOC s0 w4 w3 begin_unlock
    VSETMAP w2 begin_unlock
begin_unlock: VUNLOCK s0
begin_end: RET

routine put public budget 40
    VGETMAP w2
    VLOCK s0 w2 put_end
    VDIRTY s0
    LDI w3 16
    DEREF s0 p0 w3 2 put_unlock
    STW w0 p0 0
put_unlock: VUNLOCK s0
put_end: RET

; Puts out the word, or why the map block is refused.
routine get public budget 40
    VGETMAP w2
    VLOCK s0 w2 get_refused
    LDI w3 16
    DEREF s0 p0 w3 2 get_unlock
    LDW w4 p0 0
    OUT w4 get_unlock
get_unlock: VUNLOCK s0
    RET
get_refused: OUT w7 get_end
get_end: RET

; A block with a chunk of w0 bytes.
routine lengthen public budget 40
    LDI w1 6
    VNEW s0 w2 w1 lengthen_end
    LALLOC s0 w3 w0 lengthen_unlock
    OUT w3 lengthen_unlock
lengthen_unlock: VUNLOCK s0
lengthen_end: RET

; Puts out its handle, or 0, and the length of its chunk.
routine tell public budget 40
    LDI w0 0
    LDI w1 6
    VFIND w2 w0 w1 tell_end
    OUT w2 tell_end
    VLOCK s0 w2 tell_end
    LDI w3 16
    LSIZE s0 w4 w3 tell_unlock
    OUT w4 tell_unlock
tell_unlock: VUNLOCK s0
tell_end: RET

routine drop public budget 40
    LDI w0 0
    LDI w1 6
    VFIND w2 w0 w1 drop_end
    VFREE w2 drop_end
drop_end: RET
