; Prints the triangular numbers 1, 3, 6 and 10. The body of the loop is after the return.

routine triangles public budget 29
        LDI w0 0
        LDI w1 0
        LDI w2 1
        SETK k0 3
next:   JMP turn
back:   LOOP k0 next
end:    RET
turn:   ADD w1 w1 w2
        ADD w0 w0 w1
        OUT w0 end
        JMP back
