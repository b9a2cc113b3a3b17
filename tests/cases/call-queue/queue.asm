; A queue of words in an array. Each routine is handed the handle of the block in w0 and that of the array in w1.

; Makes the queue, and prints both handles.
routine start public budget 6
        MNEW s0 w0 nothing_made
        CANEW s0 w1 2 made             ; elements of two bytes
        OUT w0 made
        OUT w1 made
made:   MUNLOCK s0
nothing_made:
        RET

; Puts w2 at the end.
routine put public budget 9
        MLOCK s0 w0 put_end
        CACOUNT s0 w3 w1 there         ; the index that it gets
        CAADD s0 w1 w4 there           ; w4 does not count: elements have one size
        CAELT s0 p0 w1 w3 2 there
        STW w2 p0 0
there:  MUNLOCK s0
put_end:
        RET

; Takes the first one out, and prints it; prints nothing where there is none.
routine take public budget 8
        MLOCK s0 w0 take_end
        LDI w2 0
        CAELT s0 p0 w1 w2 2 taken
        LDW w3 p0 0
        OUT w3 taken
        CADEL s0 w1 w2 taken
taken:  MUNLOCK s0
take_end:
        RET
