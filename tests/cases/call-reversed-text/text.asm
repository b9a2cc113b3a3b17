; A text of at most 200 letters, a byte each, in the one chunk of a block: its handle is 16. Each routine is handed the block's in w0.

; Makes an empty text, and prints the block's handle.
routine open public budget 7
        MNEW s0 w0 not_made
        LDI w1 0
        LALLOC s0 w2 w1 undo
        OUT w0 undo
        MUNLOCK s0
        RET
undo:   MUNLOCK s0
        MFREE w0 not_made
not_made:
        RET

; Appends the letter w1.
routine type public budget 9
        MLOCK s0 w0 type_end
        LDI w2 16
        LSIZE s0 w3 w2 typed
        LDI w4 1
        LINS s0 w2 w3 w4 typed
        DEREF s0 p0 w2 1 typed
        STCB w1 p0 w3 typed
typed:  MUNLOCK s0
type_end:
        RET

; Reverses the text in its place.
routine reverse public budget 809
        MLOCK s0 w0 reverse_end
        LDI w1 16
        DEREF s0 p0 w1 0 reversed
        LDI w5 1
        LDI w2 0                       ; from the front
        PLEN w3 p0                     ; and from behind
        SETK k0 99
turn:   SUB w3 w3 w5                   ; of an empty text there is no letter at 65,535
        BLT w2 w3 swap
        JMP reversed
swap:   LDCB w4 p0 w2 reversed
        LDCB w6 p0 w3 reversed
        STCB w6 p0 w2 reversed
        STCB w4 p0 w3 reversed
        ADD w2 w2 w5
        LOOP k0 turn
reversed:
        MUNLOCK s0
reverse_end:
        RET

; Prints the letters.
routine print public budget 808
        MLOCK s0 w0 print_end
        LDI w1 16
        DEREF s0 p0 w1 0 printed
        LDI w2 0
        LDI w3 1
        SETK k0 199
letter: LDCB w4 p0 w2 printed
        OUT w4 printed
        ADD w2 w2 w3
        LOOP k0 letter
printed:
        MUNLOCK s0
print_end:
        RET
