; least budget 25
routine main public budget BUDGET
        LDI w0 0
        LDI w1 1
        SETK k0 3
next:   JMP body
tail:   OUT w0 end
        LOOP k0 next
        JMP end
body:   ADD w0 w0 w1
        JMP tail
end:    RET
