; least budget 22
routine main public budget BUDGET
        LDI w0 0
        LDI w1 1
        SETK k0 3
        JMP test
body:   ADD w0 w0 w1
        OUT w0 end
        JMP again
test:   JMP body
again:  LOOP k0 body
end:    RET
