routine double budget 2
        ADD w0 w0 w0
        RET

routine keep public budget 16
        CALL double
        MNEW s0 w1 end
        LALLOC s0 w2 w0 give
        DEREF s0 p0 w2 4 give
        STW w0 p0 2
        STB w0 p0 0
        MOVP p1 p0
        LDB w3 p1 2
        BEQ w0 w3 less
        LDI w4 5
less:   LSIZE s0 w5 w4 give
give:   MUNLOCK s0
        MFREE w1 end
end:    RET
