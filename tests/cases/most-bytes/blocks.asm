; A chunk of 984 bytes takes 988 with its size; with a header of 16 bytes and a table of 4 its block has 1,008. A new block has 64.

; Makes a block of memory of 1,008 bytes, and outputs its handle; or 100 and the refusal, and there is no block.
routine make public budget 12
        LDI w2 984
        MNEW s0 w1 make_no
        LALLOC s0 w3 w2 make_undo
        MUNLOCK s0
        OUT w1 make_end
        RET
make_undo:
        MUNLOCK s0
        MFREE w1 make_no
make_no:
        LDI w1 100
        ADD w7 w7 w1
        OUT w7 make_end
make_end:
        RET

; Frees the block w0.
routine drop public budget 3
        MFREE w0 drop_no
drop_no:
        RET

; Makes such a block of the VM file.
routine store public budget 12
        LDI w2 984
        VNEW s0 w1 w2 store_no
        LALLOC s0 w3 w2 store_undo
        VUNLOCK s0
        OUT w1 store_end
        RET
store_undo:
        VUNLOCK s0
        VFREE w1 store_no
store_no:
        LDI w1 100
        ADD w7 w7 w1
        OUT w7 store_end
store_end:
        RET

; Makes three blocks, and outputs how many it made; before that 100 and the refusal, if one was refused.
routine three public budget 30
        SETK k0 2
        LDI w0 0
        LDI w2 984
        LDI w4 1
three_again:
        MNEW s0 w1 three_no
        LALLOC s0 w3 w2 three_undo
        MUNLOCK s0
        ADD w0 w0 w4
        LOOP k0 three_again
        OUT w0 three_end
        RET
three_undo:
        MUNLOCK s0
three_no:
        LDI w1 100
        ADD w7 w7 w1
        OUT w7 three_end
        OUT w0 three_end
three_end:
        RET
