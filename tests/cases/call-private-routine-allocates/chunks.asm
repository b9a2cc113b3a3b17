; A private routine that allocates. It is given the block in s0 and the length in w6; w6 is then the handle of the new chunk, or 0
; where it can't be made. Behind the CALL no pointer into the block is known.
routine new budget 3
        in s0=mem
        out s0=mem
        LALLOC s0 w6 w6 none
        RET
none:   LDI w6 0
        RET

; Makes chunks of w0 and of w1 bytes in a new block, and prints their handles and lengths; 0 is the handle of one that can't be made.
routine two public budget 23
        MNEW s0 w2 end
        MOV w6 w0
        CALL new
        MOV w3 w6
        MOV w6 w1
        CALL new
        OUT w3 undo
        OUT w6 undo
        LSIZE s0 w4 w3 second
        OUT w4 undo
second: LSIZE s0 w4 w6 undo
        OUT w4 undo
undo:   MUNLOCK s0
        MFREE w2 end
end:    RET
