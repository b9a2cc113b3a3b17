; A list of records that outlives its calls. A record has 4 bytes, a number and a value. Each routine gets the handle
; of the block in w0 and the handle of the array in w1, and locks the block itself.

; Makes the list, and prints both handles.
routine start public budget 6
        MNEW s0 w0 nothing_made
        CANEW s0 w1 4 made
        OUT w0 made
        OUT w1 made
made:
        MUNLOCK s0
nothing_made:
        RET

; Appends the record with number w2 and value w3.
routine add public budget 10
        MLOCK s0 w0 not_added
        CAADD s0 w1 w2 added
        CACOUNT s0 w4 w1 added
        LDI w5 1
        SUB w4 w4 w5
        CAELT s0 p0 w1 w4 4 added      ; CAADD may have moved the chunk: fetch the new record after it
        STW w2 p0 0
        STW w3 p0 2
added:
        MUNLOCK s0
not_added:
        RET

; Deletes the record at index w2; prints the refusal's number if there is none.
routine drop public budget 5
        MLOCK s0 w0 not_dropped
        CADEL s0 w1 w2 x
        JMP dropped
x:
        OUT w7 dropped
dropped:
        MUNLOCK s0
not_dropped:
        RET

; Prints the records, if they are at most 100.
routine show public budget 710
        MLOCK s0 w0 not_shown
        CACOUNT s0 w2 w1 shown
        LDI w3 0
        BEQ w2 w3 shown
        LDI w5 1
        SUB w2 w2 w5
        CHK w2 99 shown            ; continues if w2 is at most 99, which bounds the iterations of the loop
        SETKW k0 w2
next:
        CAELT s0 p0 w1 w3 4 shown
        LDW w4 p0 0
        OUT w4 shown
        LDW w4 p0 2
        OUT w4 shown
        ADD w3 w3 w5
        LOOP k0 next
shown:
        MUNLOCK s0
not_shown:
        RET
