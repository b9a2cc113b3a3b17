; least budget 304
; `while` with the counter at the head: goes on while k0 lasts
routine pay public budget BUDGET
        SETK k0 100
head:   LOOP k0 body
        JMP out
body:   ADD w0 w0 w1
        BLT w0 w2 head
out:    RET
