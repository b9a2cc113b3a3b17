; Budgets of every kind, callees first.

routine add budget ?   ; the least is 3
    ADD w0 w0 w1
    OUT w0 add_end
add_end: RET

	routine  twice	budget 4294967295;as many as there are
    CALL add
    CALL add
    RET

; `budget 7` in a comment stays: routine add budget ?
routine main public budget 1
    CALL twice
    CALL add
    RET

routine squares public  budget   0000
    in w0<=9
    LDI w1 1
    SETK k0 9
    LDI w2 0
squares_turn: ADD w2 w2 w1
    OUT w2 squares_end
    LDI w3 2
    ADD w1 w1 w3
    LOOP k0 squares_turn
squares_end: RET
