; A stack of words in one chunk, which grows by a word with each push. Its top is at the chunk's end. Each routine is handed the
; handle of the block in w0 and that of the chunk in w1.

; Makes the stack, and prints both handles.
routine start public budget 7
        MNEW s0 w0 nothing_made
        LDI w2 0
        LALLOC s0 w1 w2 made           ; a chunk of no bytes
        OUT w0 made
        OUT w1 made
made:   MUNLOCK s0
nothing_made:
        RET

; Puts w2 on top.
routine push public budget 8
        MLOCK s0 w0 push_end
        LSIZE s0 w3 w1 pushed
        LDI w4 2
        LINS s0 w1 w3 w4 pushed        ; two bytes at the end; the block grows where it has to
        DEREF s0 p0 w1 2 pushed        ; LINS may have moved the chunk
        STCW w2 p0 w3 pushed
pushed: MUNLOCK s0
push_end:
        RET

; Takes the top off, and prints it; prints nothing where the stack is empty.
routine pop public budget 10
        MLOCK s0 w0 pop_end
        LSIZE s0 w3 w1 popped
        LDI w4 2
        DEREF s0 p0 w1 2 popped        ; refused where there is no word
        SUB w3 w3 w4
        LDCW w5 p0 w3 popped
        OUT w5 popped
        LDEL s0 w1 w3 w4 popped
popped: MUNLOCK s0
pop_end:
        RET
