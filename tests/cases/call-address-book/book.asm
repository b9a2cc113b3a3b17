; An address book in the VM file. It is an array in the map block, the newest entry first. An entry has eight bytes: a number, which is
; a word, and a name of at most five letters, a byte each, with zeros behind it.

; Makes the book, where the file has none.
routine open public budget 10
        VGETMAP w0
        LDI w1 0
        BEQ w0 w1 make
        RET
make:   LDI w1 7                       ; a user ID of the author's own
        VNEW s0 w0 w1 not_made
        CANEW s0 w2 8 undo             ; the first chunk of its block: its handle is 16
        VSETMAP w0 undo
        VUNLOCK s0
        RET
undo:   VUNLOCK s0
        VFREE w0 not_made
not_made:
        RET

; Enters the number w0 under the name of the letters w1 to w5.
routine enter public budget 15
        VGETMAP w7
        VLOCK s0 w7 enter_end
        VDIRTY s0
        LDI w7 16
        LDI w6 0
        CAINS s0 w7 w6 w6 entered
        CAELT s0 p0 w7 w6 8 entered    ; CAINS may have moved the chunk
        STW w0 p0 0
        STB w1 p0 2
        STB w2 p0 3
        STB w3 p0 4
        STB w4 p0 5
        STB w5 p0 6
entered:
        VUNLOCK s0
enter_end:
        RET

; Prints the letters of the name under which the number w0 stands, among the first 100 entries.
routine name public budget 539
        VGETMAP w1
        VLOCK s0 w1 name_end
        LDI w1 16
        LDI w2 0
        LDI w3 1
        SETK k0 99
next:   CAELT s0 p0 w1 w2 8 named      ; refused behind the last entry
        LDW w4 p0 0
        BEQ w4 w0 found
        ADD w2 w2 w3
        LOOP k0 next
        JMP named
found:  LDI w4 2
        LDI w5 0
        SETK k1 4
letter: LDCB w6 p0 w4 named
        BEQ w6 w5 named                ; a zero ends the name
        OUT w6 named
        ADD w4 w4 w3
        LOOP k1 letter
named:  VUNLOCK s0
name_end:
        RET

; Takes out the newest entry.
routine forget public budget 8
        VGETMAP w1
        VLOCK s0 w1 forget_end
        VDIRTY s0
        LDI w1 16
        LDI w2 0
        CADEL s0 w1 w2 forgotten
forgotten:
        VUNLOCK s0
forget_end:
        RET
