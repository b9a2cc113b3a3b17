; Counts the entries of an address book whose name starts with a letter from w0 to w1, of at most 1,000.
routine starting public budget 7007
        in s0=vm@
        out s0=vm@
        LDI w2 16                      ; the array of the entries
        LDI w3 0
        LDI w4 1
        LDI w5 0
        SETK k0 999
next:
        CAELT s0 p0 w2 w3 1 counted    ; refused behind the last entry
        LDB w6 p0 0
        BLT w6 w0 other
        BLT w1 w6 other
        ADD w5 w5 w4
other:
        ADD w3 w3 w4
        LOOP k0 next
counted:
        OUT w5 end
end:
        RET
