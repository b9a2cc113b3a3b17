routine keep public budget ?
        LDI w1 7
        VNEW s0 w0 w1 end
        LDI w2 3
        LALLOC s0 w3 w2 undo
        DEREF s0 p0 w3 3 undo
        LDI w4 65
        STB w4 p0 0
undo:   VUNLOCK s0
end:    RET
