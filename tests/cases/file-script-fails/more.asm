
; Whether the map block can be locked: 0, or the number of the refusal.
routine locked public budget 40
    VGETMAP w0
    VLOCK s0 w0 locked_put
    VUNLOCK s0
    LDI w7 0
locked_put: OUT w7 locked_end
locked_end: RET

; Asks for more than a full region has room for, and puts out the refusal. So the clean blocks of the file go out of memory.
routine tight public budget 40
    MNEW s0 w0 tight_end
    LDI w1 600
    LALLOC s0 w2 w1 tight_full
    JMP tight_unlock
tight_full: OUT w7 tight_unlock
tight_unlock: MUNLOCK s0
tight_end: RET
