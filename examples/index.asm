; The index of a book, as an array of elements of varying sizes, in ascending order. An element is a word, which stands for a term,
; and then a word for each page on which it is. Each routine gets the handle of the block in w0, and the handle of the array in w1.

; Makes the index, and prints both handles.
routine start public budget 6
        MNEW s0 w0 nothing_made
        CANEW s0 w1 0 made             ; 0: each element has a size of its own
        OUT w0 made
        OUT w1 made
made:
        MUNLOCK s0
nothing_made:
        RET

; Enters the page w3 for the term w2.
routine enter public budget 610
        MLOCK s0 w0 enter_end
        LDI w4 0
        LDI w5 1
        SETK k0 99
look:
        CAELT s0 p0 w1 w4 2 place      ; after the last element: insert the term there
        LDW w6 p0 0
        BEQ w6 w2 found
        BLT w2 w6 place                ; or before the first one that is greater
        ADD w4 w4 w5
        LOOP k0 look
        JMP unlock                     ; it would come after 100 others: it is not entered
place:
        LDI w6 4
        CAINS s0 w1 w4 w6 unlock
        CAELT s0 p0 w1 w4 4 unlock     ; CAINS may have moved the chunk: fetch the element again
        STW w2 p0 0
        STW w3 p0 2
        JMP unlock
found:
        PLEN w5 p0
        LDI w6 2
        ADD w6 w5 w6
        CARESIZE s0 w1 w4 w6 unlock    ; two more bytes, for the page
        CAELT s0 p0 w1 w4 2 unlock     ; and fetch it again
        STCW w3 p0 w5 unlock
unlock:
        MUNLOCK s0
enter_end:
        RET

; Prints each term, of at most 100, how many pages it has, and the first 10 of these.
routine print public budget 5107
        MLOCK s0 w0 print_end
        LDI w2 0
        LDI w3 1
        LDI w4 2
        SETK k0 99
term:
        CAELT s0 p0 w1 w2 2 printed    ; refused after the last element, which ends the outer loop
        LDW w6 p0 0
        OUT w6 printed
        PLEN w6 p0
        SHR w6 w6 1                    ; two bytes a word
        SUB w6 w6 w3                   ; the first one is the term
        OUT w6 printed
        MOV w5 w4
        SETK k1 9
page:
        LDCW w6 p0 w5 next             ; refused after the last page, which ends the inner loop
        OUT w6 printed
        ADD w5 w5 w4
        LOOP k1 page
next:
        ADD w2 w2 w3
        LOOP k0 term
printed:
        MUNLOCK s0
print_end:
        RET

; Deletes all terms.
routine clear public budget 4
        MLOCK s0 w0 clear_end
        CAZERO s0 w1 cleared
cleared:
        MUNLOCK s0
clear_end:
        RET
