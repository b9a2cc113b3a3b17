; least budget 4294901762
; 65,536 outer turns of 65,535 steps, and two steps: one inner turn more, and they pass 4,294,967,295
routine main public budget BUDGET
        SETK k0 65535
a:      SETK k1 65532
b:      LOOP k1 b
        LOOP k0 a
        RET
