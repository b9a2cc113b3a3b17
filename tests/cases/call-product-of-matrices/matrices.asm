; Matrices of two rows and two columns: a block has one, a chunk of four words, row by row; the chunk's handle is 16.

; Makes the matrix of w0 to w3, and prints the handle of its block.
routine matrix public budget 11
        MNEW s0 w4 end
        LDI w5 8
        LALLOC s0 w5 w5 undo
        DEREF s0 p0 w5 8 undo
        STW w0 p0 0
        STW w1 p0 2
        STW w2 p0 4
        STW w3 p0 6
        OUT w4 undo
undo:   MUNLOCK s0
end:    RET

; w7 is w3 times w4, modulo 65,536: a turn for each bit of w4. What it does not use it passes on.
routine times budget 100
        in s0=mem s1=mem p0=s0:8 p1=s1:8
        out s0=mem s1=mem p0=s0:8 p1=s1:8
        LDI w7 0
        LDI w6 0
        SETK k3 15
bit:    AND w5 w4 1
        BEQ w5 w6 even
        ADD w7 w7 w3
even:   ADD w3 w3 w3
        SHR w4 w4 1
        LOOP k3 bit
        RET

; Prints the product of the matrices w0 and w1, row by row.
routine product public budget 884
        MLOCK s0 w0 none
        MLOCK s1 w1 one
        LDI w2 16
        DEREF s0 p0 w2 8 both
        DEREF s1 p1 w2 8 both
        LDI w0 0                       ; where the row begins
        SETK k0 1
row:    LDI w1 0                       ; where the column begins
        SETK k1 1
column: LDCW w3 p0 w0 both
        LDCW w4 p1 w1 both
        CALL times
        MOV w2 w7
        LDI w3 2
        ADD w3 w0 w3
        LDCW w3 p0 w3 both
        LDI w4 4
        ADD w4 w1 w4
        LDCW w4 p1 w4 both
        CALL times
        ADD w2 w2 w7
        OUT w2 both
        LDI w3 2
        ADD w1 w1 w3
        LOOP k1 column
        LDI w3 4
        ADD w0 w0 w3
        LOOP k0 row
both:   MUNLOCK s1
one:    MUNLOCK s0
none:   RET
