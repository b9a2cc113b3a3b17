; A note book in the VM file. Its notes are items of one group; a note has 4 bytes, a number and a place. The map item is the
; list of the notes: their handles, a word each, the newest first.

; Makes the group and the list, if the file has no map item yet.
routine open public budget 8
        IGETMAP w0 w1
        LDI w2 0
        BEQ w0 w2 make
        RET
make:
        GNEW w0 not_made
        INEW w1 w0 w2 undo_open             ; an item of no bytes
        ISETMAP w0 w1 undo_open
        RET
undo_open:
        GFREE w0 not_made
not_made:
        RET

; Adds the note with number w0 and place w1; prints the refusal's number if it can't.
routine add public budget 15
        IGETMAP w2 w3
        ILOCK s0 p0 w2 w3 0 not_added  ; the group stays in memory from here on
        LDI w4 4
        INEW w5 w2 w4 unlock           ; the note
        LDI w4 0
        LDI w6 2
        IINS w2 w3 w4 w6 undo          ; room for its handle, before the others
        IDIRTY s0
        DEREF s0 p0 w3 2 unlock        ; INEW and IINS move items: fetch again
        STW w5 p0 0
        DEREF s0 p0 w5 4 unlock
        STW w0 p0 0
        STW w1 p0 2
        IUNLOCK s0
        RET
undo:
        IFREE w2 w5 unlock
unlock:
        IUNLOCK s0
not_added:
        OUT w7 add_end
add_end:
        RET

; Prints the number and the place of each note, of at most 100.
routine print public budget 807
        IGETMAP w0 w1
        ILOCK s0 p0 w0 w1 0 not_printed
        LDI w2 0
        LDI w3 2
        SETK k0 99
next:
        LDCW w4 p0 w2 printed          ; the next handle; refused after the last one, which ends the loop
        DEREF s0 p1 w4 4 printed
        LDW w5 p1 0
        OUT w5 printed
        LDW w5 p1 2
        OUT w5 printed
        ADD w2 w2 w3
        LOOP k0 next
printed:
        IUNLOCK s0
not_printed:
        RET

; Deletes note w0, counted from 0 in the order of `print`; prints the refusal's number if there is none.
routine forget public budget 10
        in w0<=32767
        IGETMAP w1 w2
        ILOCK s0 p0 w1 w2 0 not_forgotten
        MULI w3 w0 2                   ; where its handle is; the line `in` bounds this to a word
        LDCW w4 p0 w3 kept
        LDI w5 2
        IDEL w1 w2 w3 w5 kept
        IFREE w1 w4 kept
        IUNLOCK s0
        RET
kept:
        IUNLOCK s0
not_forgotten:
        OUT w7 forget_end
forget_end:
        RET
