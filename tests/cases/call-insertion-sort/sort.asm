; Prints the numbers w0 to w5 in ascending order: an insertion sort of a chunk of six words.
routine sort public budget 350
        MNEW s0 w6 end
        LDI w7 12
        LALLOC s0 w7 w7 undo
        DEREF s0 p0 w7 12 undo
        STW w0 p0 0
        STW w1 p0 2
        STW w2 p0 4
        STW w3 p0 6
        STW w4 p0 8
        STW w5 p0 10
        LDI w4 2
        MOV w0 w4                      ; where the next one stands that is put in; those before it are in order
        SETK k0 4
insert: MOV w1 w0
        SETK k1 4
back:   SUB w2 w1 w4
        LDCW w3 p0 w2 in_place         ; refused in front of the first one
        LDCW w5 p0 w1 in_place
        BLT w5 w3 swap
        JMP in_place
swap:   STCW w5 p0 w2 in_place
        STCW w3 p0 w1 in_place
        MOV w1 w2
        LOOP k1 back
in_place:
        ADD w0 w0 w4
        LOOP k0 insert
        LDI w1 0
        SETK k0 5
print:  LDCW w3 p0 w1 undo
        OUT w3 undo
        ADD w1 w1 w4
        LOOP k0 print
undo:   MUNLOCK s0
        MFREE w6 end
end:    RET
