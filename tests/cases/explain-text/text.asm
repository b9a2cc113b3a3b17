; nothing but a sum
routine one budget 2
        in w1<=3
        LDI w0 1 ; one
        RET

routine add public budget 5
        LDI w0 2
a:      LDI w1 3
b:
c:      ADD w0 w0 w1
        OUT w0 x

x:      RET
; the end
