; A counter in the VM file. It survives runs: each script ends with `update`, and the next run continues from there.
; It is a word in the first chunk of the map block. The first chunk that is made in a block has the handle 16.

; Makes the counter, if the file has no map block yet.
routine start public budget 11
        VGETMAP w0
        LDI w1 0
        BEQ w0 w1 make
        RET
make:
        LDI w1 1                   ; a user ID: any but 65,280, the one of groups
        VNEW s0 w0 w1 not_made
        LDI w2 2
        LALLOC s0 w3 w2 undo       ; two zero bytes
        VSETMAP w0 undo
        VUNLOCK s0
        RET
undo:
        VUNLOCK s0
        VFREE w0 not_made
not_made:
        RET

; Adds one to the counter, and prints it.
routine count public budget 12
        VGETMAP w0
        VLOCK s0 w0 not_counted
        VDIRTY s0                  ; the mark comes first: without it the store is refused
        LDI w1 16
        DEREF s0 p0 w1 2 counted
        LDW w2 p0 0
        LDI w3 1
        ADD w2 w2 w3
        STW w2 p0 0
        OUT w2 counted
counted:
        VUNLOCK s0
not_counted:
        RET
