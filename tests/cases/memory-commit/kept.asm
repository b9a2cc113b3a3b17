; A word is put into a new block of the file, which becomes the map block; and read again from there.
routine put public budget 40
    LDI w1 5
    VNEW s0 w2 w1 put_end
    LDI w3 2
    LALLOC s0 w4 w3 put_unlock
    DEREF s0 p0 w4 2 put_unlock
    STW w0 p0 0
    VSETMAP w2 put_unlock
put_unlock: VUNLOCK s0
put_end: RET

routine get public budget 40
    VGETMAP w0
    VLOCK s0 w0 get_end
    LDI w1 16
    DEREF s0 p0 w1 2 get_unlock
    LDW w2 p0 0
    OUT w2 get_unlock
get_unlock: VUNLOCK s0
get_end: RET

; Each commit, and the number of its refusal or 0.
routine commit public budget 40
    LDI w7 0
    VUPDATE updated
updated: OUT w7 commit_end
    LDI w7 0
    VSAVE saved
saved: OUT w7 commit_end
    LDI w7 0
    VREVERT reverted
reverted: OUT w7 commit_end
commit_end: RET
