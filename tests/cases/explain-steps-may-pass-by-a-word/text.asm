; sorts the words of the array w1 by insertion: how many there are is not checked
routine sort public budget 4294967295
        MLOCK s0 w0 e
        CACOUNT s0 w2 w1 u
        LDI w3 0
        LDI w7 1
        SETKW k0 w2
next:   MOV w4 w3
        SETKW k1 w3
sink:   CAELT s0 p0 w1 w4 2 sunk
        SUB w4 w4 w7
        CAELT s0 p1 w1 w4 2 sunk
        LDW w5 p0 0
        LDW w6 p1 0
        BLT w6 w5 sunk
        STW w6 p0 0
        STW w5 p1 0
        LOOP k1 sink
sunk:   ADD w3 w3 w7
        LOOP k0 next
u:      MUNLOCK s0
e:      RET
